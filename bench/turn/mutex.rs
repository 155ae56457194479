// The baseline: threads that call a counter behind `std::sync::Mutex`.
// The two words are the number of threads and the number of calls of each.
use std::env;
use std::hint::black_box;
use std::sync::Mutex;
use std::thread;
use std::time::Instant;

fn main() {
    let words: Vec<u64> = env::args().skip(1).map(|word| word.parse().unwrap()).collect();
    let (threads, calls) = (words[0], words[1]);
    let counter = Mutex::new(0u64);
    let start = Instant::now();
    thread::scope(|scope| {
        for _ in 0..threads {
            scope.spawn(|| {
                for _ in 0..calls {
                    let mut count = counter.lock().unwrap();
                    *count = black_box(*count + 1);
                }
            });
        }
    });
    let took = start.elapsed().as_micros();
    println!("{} calls by {threads} threads", counter.into_inner().unwrap());
    eprintln!("{took} microseconds");
}
