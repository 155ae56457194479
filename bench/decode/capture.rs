// Writes a capture of about 100 MB to standard output:
//   capture ints N          N puts and gets of ints by turns, each with its reply after it, in one session
//   capture texts N SIZE    the same of texts of SIZE letters
//   capture waiting N MANY  as ints, but each reply comes MANY requests later
//   capture sessions N MANY as ints, over MANY sessions by turns, at most 1,024
// A record has one frame. The cache is `main`, the version 1.0.0.
use std::collections::VecDeque;
use std::io::{self, BufWriter, Write};

const MAIN: i32 = 3_343_801;

fn int(n: i32) -> Vec<u8> {
    let mut value = vec![3];
    value.extend(n.to_le_bytes());
    value
}

fn text(letters: usize) -> Vec<u8> {
    let mut value = vec![9];
    value.extend((letters as i32).to_le_bytes());
    value.resize(value.len() + letters, b'a');
    value
}

fn framed(body: &[u8]) -> Vec<u8> {
    let mut frame = (body.len() as i32).to_le_bytes().to_vec();
    frame.extend(body);
    frame
}

fn record(side: u8, session: i32, bytes: &[u8]) -> Vec<u8> {
    let mut record = vec![side];
    record.extend(session.to_le_bytes());
    record.extend((bytes.len() as i32).to_le_bytes());
    record.extend(bytes);
    record
}

fn request(operation: i16, id: i64, parts: &[&[u8]]) -> Vec<u8> {
    let mut body = operation.to_le_bytes().to_vec();
    body.extend(id.to_le_bytes());
    body.extend(MAIN.to_le_bytes());
    body.push(0);
    parts.iter().for_each(|part| body.extend(*part));
    framed(&body)
}

fn reply(id: i64, result: &[u8]) -> Vec<u8> {
    let mut body = id.to_le_bytes().to_vec();
    body.extend(0i32.to_le_bytes());
    body.extend(result);
    framed(&body)
}

fn main() -> io::Result<()> {
    let words: Vec<String> = std::env::args().collect();
    let number = |at: usize| words.get(at).and_then(|word| word.parse().ok()).unwrap_or(1usize);
    let (kind, count, many) = (words[1].as_str(), number(2), number(3));
    let sessions = if kind == "sessions" { many } else { 1 };
    let behind = if kind == "waiting" { many } else { 0 };
    let value = if kind == "texts" { text(many) } else { int(7) };
    let mut out = BufWriter::new(io::stdout().lock());
    out.write_all(b"IGC1")?;
    for session in 0..sessions {
        out.write_all(&record(0, session as i32, &framed(&[1, 1, 0, 0, 0, 0, 0, 2])))?;
        out.write_all(&record(1, session as i32, &framed(&[1])))?;
    }
    let mut replies = VecDeque::new();
    for turn in 0..count {
        let (session, id) = ((turn % sessions) as i32, turn as i64);
        let key = int((turn % 1000) as i32);
        let (asked, result) = if turn % 2 == 0 {
            (request(1001, id, &[&key, &value]), Vec::new())
        } else {
            (request(1000, id, &[&key]), value.clone())
        };
        out.write_all(&record(0, session, &asked))?;
        replies.push_back(record(1, session, &reply(id, &result)));
        if replies.len() > behind {
            out.write_all(&replies.pop_front().unwrap_or_default())?;
        }
    }
    for left in replies {
        out.write_all(&left)?;
    }
    out.flush()
}
