//! The yardstick of `crates/frame_bench`: the same cutting of a stream into frames, by hand in plain Rust.
//!
//! The words are those of `frame_bench`.
use std::hint::black_box;
use std::time::Instant;

const MAX_FRAME: u32 = 8_388_608;
const SPARE: usize = 65_536;

enum Next<'a> {
    Frame { place: u64, body: &'a [u8] },
    More { missing: u64 },
    Bad { place: u64, length: i32 },
}

struct Frames {
    bytes: Vec<u8>,
    start: usize,
    place: u64,
    limit: u32,
}

impl Frames {
    fn new(limit: u32) -> Frames {
        Frames { bytes: Vec::new(), start: 0, place: 0, limit }
    }

    fn feed(&mut self, piece: &[u8]) {
        let held = self.bytes.len() - self.start;
        if held == 0 {
            self.bytes.clear();
            self.start = 0;
        } else if self.bytes.capacity() - self.bytes.len() < piece.len() && held <= self.start {
            self.bytes.copy_within(self.start.., 0);
            self.bytes.truncate(held);
            self.start = 0;
        }
        self.bytes.extend_from_slice(piece);
    }

    fn next(&mut self, least: u32) -> Next<'_> {
        self.give_back();
        let place = self.place;
        let rest = &self.bytes[self.start..];
        let Some(length) = rest.first_chunk() else {
            return Next::More { missing: 4 - rest.len() as u64 };
        };
        let length = i32::from_le_bytes(*length);
        let len = match u32::try_from(length) {
            Ok(len) if least <= len && len <= self.limit => len as usize,
            _ => return Next::Bad { place, length },
        };
        if rest.len() - 4 < len {
            return Next::More { missing: (len - (rest.len() - 4)) as u64 };
        }
        let body = self.start + 4;
        self.start = body + len;
        self.place = place.saturating_add(4 + len as u64);
        Next::Frame { place, body: &self.bytes[body..body + len] }
    }

    fn give_back(&mut self) {
        let held = self.bytes.len() - self.start;
        if held <= self.start && self.bytes.capacity() - held > 2 * SPARE {
            let mut smaller = Vec::with_capacity(held + SPARE);
            smaller.extend_from_slice(&self.bytes[self.start..]);
            self.bytes = smaller;
            self.start = 0;
        }
    }
}

fn take(frames: &mut Frames) -> (u64, u64) {
    let (mut count, mut bytes) = (0, 0);
    loop {
        match frames.next(1) {
            Next::Frame { place, body } => {
                black_box(place);
                count += 1;
                bytes += body.len() as u64;
            }
            Next::More { missing } => {
                black_box(missing);
                return (count, bytes);
            }
            Next::Bad { place, length } => panic!("{length} at {place}"),
        }
    }
}

fn cut(stream: &[u8], piece: usize) -> (u64, u64) {
    let mut frames = Frames::new(MAX_FRAME);
    let (mut count, mut bytes) = (0, 0);
    for piece in stream.chunks(piece) {
        frames.feed(piece);
        let (more, longer) = take(&mut frames);
        count += more;
        bytes += longer;
    }
    (count, bytes)
}

fn main() {
    let words: Vec<u32> = std::env::args().skip(1).map(|word| word.parse().expect("a number")).collect();
    let [rounds, body, piece, bytes] = words[..] else { panic!("four words") };
    let count = (u64::from(bytes) / (4 + u64::from(body))).max(1);
    let mut stream = Vec::new();
    for _ in 0..count {
        stream.extend_from_slice(&body.to_le_bytes());
        stream.resize(stream.len() + body as usize, 0);
    }
    let mut least = u128::MAX;
    for _ in 0..rounds {
        let start = Instant::now();
        let cut = cut(black_box(&stream), piece as usize);
        least = least.min(start.elapsed().as_nanos());
        assert_eq!(cut, (count, count * u64::from(body)));
    }
    eprintln!("{least} {}", stream.len());
}
