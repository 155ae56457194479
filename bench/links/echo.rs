// The yardstick: a server that echoes calls of a fixed length, by hand over std's sockets. It gathers replies and
// writes them before it reads again. The words are the port of 127.0.0.1 and the number of sessions.
use std::io::{BufWriter, Read, Write};
use std::net::TcpListener;

const CALL: usize = 32;
const PIECE: usize = 64 * 1024;

fn main() -> std::io::Result<()> {
    let words: Vec<String> = std::env::args().collect();
    let port: u16 = words[1].parse().unwrap();
    let sessions: u64 = words[2].parse().unwrap();
    let listener = TcpListener::bind(("127.0.0.1", port))?;
    let mut buf = vec![0u8; PIECE];
    let mut ended = 0;
    for _ in 0..sessions {
        let (stream, _) = listener.accept()?;
        stream.set_nodelay(true)?;
        let mut reader = &stream;
        let mut writer = BufWriter::with_capacity(PIECE, &stream);
        loop {
            let n = reader.read(&mut buf)?;
            if n == 0 {
                break;
            }
            for call in buf[..n].chunks(CALL) {
                writer.write_all(call)?;
            }
            writer.flush()?;
        }
        ended += 1;
    }
    println!("{ended} of {sessions} sessions ended");
    Ok(())
}
