// Writes the input of a session to standard output:
//   requests ints N KEYS    N requests, a put and a get of an int by turns, over KEYS keys
//   requests gets N SIZE    a put of a text of SIZE letters, and N gets of it
//   requests rows ROWS      ROWS rows of ints, put 1,000 at a time
//   requests scan ROWS      the same, and a scan of them by pages of 1,000
// The cache is `main`, the version 1.0.0.
use std::io::{self, BufWriter, Write};

const MAIN: i32 = 3_343_801;

fn int(n: i32) -> Vec<u8> {
    let mut value = vec![3];
    value.extend(n.to_le_bytes());
    value
}

fn text(letters: usize) -> Vec<u8> {
    let mut value = vec![9];
    value.extend((letters as i32).to_le_bytes());
    value.resize(value.len() + letters, b'a');
    value
}

/// A request on the cache: the operation, the flags and what follows them.
fn request(operation: i16, rest: &[&[u8]]) -> Vec<u8> {
    let mut body = Vec::new();
    body.extend(operation.to_le_bytes());
    body.extend(1i64.to_le_bytes());
    body.extend(MAIN.to_le_bytes());
    body.push(0);
    rest.iter().for_each(|part| body.extend(*part));
    framed(&body)
}

fn framed(body: &[u8]) -> Vec<u8> {
    let mut frame = (body.len() as i32).to_le_bytes().to_vec();
    frame.extend(body);
    frame
}

fn rows(out: &mut impl Write, rows: i32) -> io::Result<()> {
    for first in (0..rows).step_by(1000) {
        let count = 1000.min(rows - first);
        let mut pairs = count.to_le_bytes().to_vec();
        for n in first..first + count {
            pairs.extend(int(n));
            pairs.extend(int(n));
        }
        out.write_all(&request(1004, &[&pairs]))?;
    }
    Ok(())
}

fn main() -> io::Result<()> {
    let words: Vec<String> = std::env::args().skip(1).collect();
    let number = |at: usize| words.get(at).and_then(|w| w.parse::<i32>().ok()).unwrap_or(0);
    let mut out = BufWriter::new(io::stdout().lock());
    out.write_all(&[8, 0, 0, 0, 1, 1, 0, 0, 0, 0, 0, 2])?;
    match words.first().map(String::as_str) {
        Some("ints") => {
            for n in 0..number(1) / 2 {
                let key = int(n % number(2));
                out.write_all(&request(1001, &[&key, &int(n)]))?;
                out.write_all(&request(1000, &[&key]))?;
            }
        }
        Some("gets") => {
            out.write_all(&request(1001, &[&int(1), &text(number(2) as usize)]))?;
            for _ in 0..number(1) {
                out.write_all(&request(1000, &[&int(1)]))?;
            }
        }
        Some("rows") => rows(&mut out, number(1))?,
        Some("scan") => {
            rows(&mut out, number(1))?;
            let page = 1000i32.to_le_bytes();
            out.write_all(&request(2000, &[&[101], &page, &(-1i32).to_le_bytes(), &[0]]))?;
            let mut next = vec![0xD1, 0x07, 1, 0, 0, 0, 0, 0, 0, 0];
            next.extend(1i64.to_le_bytes());
            for _ in 1..number(1) / 1000 {
                out.write_all(&framed(&next))?;
            }
        }
        _ => eprintln!("requests ints N KEYS | gets N SIZE | rows ROWS | scan ROWS"),
    }
    out.flush()
}
