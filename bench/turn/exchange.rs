// What a call is made of, on this machine: atomic exchanges, alone and beside the looks of another thread, and the way of a
// cache line from one thread to another. Each number is the median of several rounds.
use std::hint::spin_loop;
use std::sync::Barrier;
use std::sync::atomic::AtomicU64;
use std::sync::atomic::Ordering::SeqCst;
use std::thread;
use std::time::Instant;

const STEPS: u64 = 1_000_000;
const ROUNDS: usize = 15;

// Words of one cache line.
#[repr(align(64))]
#[derive(Default)]
struct Line([AtomicU64; 3]);

fn exchanges(line: &Line, count: usize) {
    for word in &line.0[..count] {
        word.fetch_add(1, SeqCst);
    }
}

// The nanoseconds of one step.
fn nanoseconds(step: impl Fn()) -> f64 {
    let start = Instant::now();
    (0..STEPS).for_each(|_| step());
    start.elapsed().as_nanos() as f64 / STEPS as f64
}

// Three exchanges while another thread looks at their line, with pauses between its looks.
fn watched(pauses: u32) -> f64 {
    let (line, done, ready) = (Line::default(), AtomicU64::new(0), Barrier::new(2));
    thread::scope(|scope| {
        scope.spawn(|| {
            ready.wait();
            while done.load(SeqCst) == 0 {
                line.0[0].load(SeqCst);
                (0..pauses).for_each(|_| spin_loop());
            }
        });
        ready.wait();
        let took = nanoseconds(|| exchanges(&line, 3));
        done.store(1, SeqCst);
        took
    })
}

// Two threads add to one word by turns. The time of one turn.
fn handover() -> f64 {
    let (line, ready) = (Line::default(), Barrier::new(2));
    let play = |me| {
        ready.wait();
        nanoseconds(|| {
            while line.0[0].load(SeqCst) % 2 != me {}
            exchanges(&line, 1);
        })
    };
    thread::scope(|scope| {
        scope.spawn(|| play(1));
        play(0) / 2.0
    })
}

fn print(name: &str, round: impl Fn() -> f64) {
    let mut rounds: Vec<f64> = (0..ROUNDS).map(|_| round()).collect();
    rounds.sort_by(f64::total_cmp);
    println!("{name}: {:.1} ns", rounds[ROUNDS / 2]);
}

fn main() {
    let line = Line::default();
    for count in 1..=3 {
        print(&format!("exchanges, {count}"), || nanoseconds(|| exchanges(&line, count)));
    }
    print("a pause", || nanoseconds(spin_loop));
    print("handing a line over", handover);
    for pauses in [0, 1, 4, 16, 64, 256] {
        print(&format!("exchanges, 3, beside looks with {pauses} pauses between"), || watched(pauses));
    }
}
