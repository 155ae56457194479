//! The same questions as `crates/parts_bench`, over a table written by hand: for each partition the
//! number of its node, and for each cache the place of its table in a hash map.
//!
//! The words are the numbers of nodes, of partitions and of questions.

use std::collections::HashMap;
use std::hint::black_box;
use std::time::Instant;

enum Key {
    Int(i32),
    Long(i64),
    Text(String),
}

fn hash(key: &Key) -> i32 {
    match key {
        Key::Int(n) => *n,
        Key::Long(n) => (n ^ ((*n as u64) >> 32) as i64) as i32,
        Key::Text(text) => text
            .encode_utf16()
            .fold(0i32, |hash, unit| hash.wrapping_mul(31).wrapping_add(i32::from(unit))),
    }
}

fn partition(hash: i32, parts: u32) -> u32 {
    if parts.is_power_of_two() {
        let bits = hash as u32;
        (bits ^ (bits >> 16)) & (parts - 1)
    } else {
        (hash % parts as i32).unsigned_abs()
    }
}

struct Routes {
    caches: HashMap<i32, usize>,
    tables: Vec<Vec<Option<(u64, u64)>>>,
}

impl Routes {
    fn owner(&self, cache: i32, key: &Key) -> Option<(u64, u64)> {
        let table = &self.tables[*self.caches.get(&cache)?];
        table[partition(hash(key), table.len() as u32) as usize]
    }
}

fn main() {
    let words: Vec<u64> = std::env::args().skip(1).map(|word| word.parse().unwrap()).collect();
    let (nodes, parts, asks) = (words[0], words[1], words[2]);
    let table = (0..parts).map(|part| Some((0, part % nodes + 1))).collect();
    let cache = black_box(3_391_929);
    let routes = Routes { caches: HashMap::from([(cache, 0)]), tables: vec![table] };
    // So that the compiler can't know the kind of every key.
    let others = [Key::Int(5), Key::Text("a".into())];
    let start = Instant::now();
    let mut sum = 0u64;
    for n in 0..asks {
        let key = Key::Long(n.wrapping_mul(0x9E37_79B9_7F4A_7C15) as i64);
        let key = if n == u64::MAX { &others[n as usize % 2] } else { &key };
        sum = sum.wrapping_add(routes.owner(cache, black_box(key)).unwrap().1);
    }
    let nanos = start.elapsed().as_nanos();
    eprintln!("routes {} ps a question", nanos * 1000 / u128::from(asks.max(1)));
    println!("{sum}");
}
