//! The same calls as `crates/shards_bench`, over shards written by hand: in each an ordered map from the
//! bytes of keys to the bytes of values.
//!
//! The words are the kind of keys, and the numbers of rows and of shards.

use std::collections::BTreeMap;
use std::hint::black_box;
use std::time::Instant;

type Rows = BTreeMap<Vec<u8>, Vec<u8>>;

fn hash(bytes: &[u8]) -> u32 {
    bytes.iter().fold(1u32, |hash, byte| hash.wrapping_mul(31).wrapping_add(*byte as i8 as u32))
}

/// The bytes of the key: its kind, the length of a text, and the number or the text.
fn spell(kind: &str, number: u32, key: &mut Vec<u8>) {
    key.clear();
    if kind == "int" {
        key.push(3);
        key.extend_from_slice(&number.to_le_bytes());
        return;
    }
    let text = match kind {
        "early" => format!("{number:08x}{}", "k".repeat(32)),
        _ => format!("{}{number:08x}", "k".repeat(40)),
    };
    key.push(9);
    key.extend_from_slice(&(text.len() as u32).to_le_bytes());
    key.extend_from_slice(text.as_bytes());
}

fn scattered(place: u32) -> u32 {
    place.wrapping_mul(0x9E37_79B1)
}

fn value(number: u32) -> Vec<u8> {
    let mut value = vec![3];
    value.extend_from_slice(&number.to_le_bytes());
    value
}

fn time(word: &str, rows: u32, mut step: impl FnMut(u32)) {
    let start = Instant::now();
    for place in 0..rows {
        step(scattered(place));
    }
    let nanos = start.elapsed().as_nanos();
    eprintln!("{word} {}", nanos * 1000 / u128::from(rows.max(1)));
}

/// All rows in the order of their keys, by a merge of the shards.
fn scan(shards: &[Rows]) -> Vec<(Vec<u8>, Vec<u8>)> {
    let mut lists: Vec<Vec<(&Vec<u8>, &Vec<u8>)>> = shards.iter().map(|rows| rows.iter().collect()).collect();
    while lists.len() > 1 {
        let mut next = Vec::new();
        for two in lists.chunks(2) {
            let mut merged = Vec::new();
            let (mut a, mut b) = (two[0].iter().peekable(), two.get(1).into_iter().flatten().peekable());
            while let (Some(x), Some(y)) = (a.peek(), b.peek()) {
                if x.0 < y.0 {
                    merged.push(*a.next().unwrap());
                } else {
                    merged.push(*b.next().unwrap());
                }
            }
            merged.extend(a);
            merged.extend(b);
            next.push(merged);
        }
        lists = next;
    }
    lists[0].iter().map(|(key, value)| (key.to_vec(), value.to_vec())).collect()
}

fn timed_scan(word: &str, shards: &[Rows], rows: u32) -> usize {
    let start = Instant::now();
    let found = black_box(scan(shards)).len();
    eprintln!("{word} {}", start.elapsed().as_nanos() * 1000 / u128::from(rows.max(1)));
    found
}

fn main() {
    let words: Vec<String> = std::env::args().collect();
    let kind = words[1].as_str();
    let (rows, count): (u32, usize) = (words[2].parse().unwrap(), words[3].parse().unwrap());
    let mut shards: Vec<Rows> = vec![Rows::new(); count];
    let place = |key: &[u8]| hash(key) as usize % count;
    let (mut key, mut answer) = (Vec::new(), Vec::new());
    let (mut found, mut removed) = (0, 0);
    let put = |shards: &mut Vec<Rows>, key: &mut Vec<u8>, number: u32| {
        spell(kind, number, key);
        match shards[place(key)].get_mut(key.as_slice()) {
            Some(standing) => *standing = value(number),
            None => {
                shards[place(key)].insert(key.clone(), value(number));
            }
        }
    };
    time("new", rows, |number| put(&mut shards, &mut key, number));
    time("get", rows, |number| {
        spell(kind, number, &mut key);
        if let Some(value) = shards[place(&key)].get(key.as_slice()) {
            answer.clear();
            answer.extend_from_slice(black_box(value));
            found += 1;
        }
    });
    time("put", rows, |number| put(&mut shards, &mut key, number));
    let scanned = timed_scan("scan", &shards, rows);
    time("remove", rows, |number| {
        spell(kind, number, &mut key);
        removed += usize::from(shards[place(&key)].remove(key.as_slice()).is_some());
    });
    let left = timed_scan("rest", &shards, rows);
    println!("{found} found, {scanned} scanned, {removed} removed, {left} left");
}
