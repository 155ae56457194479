// The client of both servers: it writes calls, some at a time, and reads as many replies before it writes again.
// The words are the port of 127.0.0.1, the number of calls, how many a write has, and how many seconds the connection
// stays idle after them. Prints the microseconds that the calls took.
use std::io::{Read, Write};
use std::net::TcpStream;
use std::time::{Duration, Instant};

const CALL: usize = 32;

fn connect(port: u16) -> TcpStream {
    for _ in 0..1000 {
        if let Ok(stream) = TcpStream::connect(("127.0.0.1", port)) {
            return stream;
        }
        std::thread::sleep(Duration::from_millis(5));
    }
    panic!("nothing listens at port {port}");
}

fn main() {
    let words: Vec<String> = std::env::args().collect();
    let port: u16 = words[1].parse().unwrap();
    let calls: usize = words[2].parse().unwrap();
    let at_a_time: usize = words[3].parse().unwrap();
    let idle: u64 = words[4].parse().unwrap();
    let mut stream = connect(port);
    stream.set_nodelay(true).unwrap();
    let sent = vec![7u8; CALL * at_a_time];
    let mut replies = vec![0u8; CALL * at_a_time];
    let start = Instant::now();
    for _ in 0..calls / at_a_time {
        stream.write_all(&sent).unwrap();
        stream.read_exact(&mut replies).unwrap();
    }
    let took = start.elapsed().as_micros();
    assert!(calls < at_a_time || replies == sent);
    std::thread::sleep(Duration::from_secs(idle));
    println!("{took}");
}
