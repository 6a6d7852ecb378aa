// Asks a server for one target over so many connections at once, each its next request when the reply to the last came, and
// prints the requests a second and the middle and the 99th of a hundred waits, in microseconds.
//   load PORT CONNECTIONS SECONDS TARGET
// With a body the target is posted to instead, so many times over one connection after another, and nothing is printed.
//   load PORT post COUNT TARGET BODY
use std::io::{Read, Write};
use std::net::TcpStream;
use std::thread;
use std::time::{Duration, Instant};

// A session ends after 10,000 requests.
const MOST: usize = 9_999;

// How many bytes the response at the front has, where it is whole.
fn response(bytes: &[u8]) -> Option<usize> {
    let head = bytes.windows(4).position(|w| w == b"\r\n\r\n")? + 4;
    let text = std::str::from_utf8(&bytes[..head]).ok()?;
    let length = text.lines().find_map(|l| l.strip_prefix("Content-Length: "))?;
    let whole = head + length.parse::<usize>().ok()?;
    (bytes.len() >= whole && text.starts_with("HTTP/1.1 20")).then_some(whole)
}

struct Client {
    stream: TcpStream,
    bytes: Vec<u8>,
    room: Vec<u8>,
}

impl Client {
    fn new(port: u16) -> Client {
        let stream = TcpStream::connect(("127.0.0.1", port)).expect("no server");
        stream.set_nodelay(true).unwrap();
        stream.set_read_timeout(Some(Duration::from_secs(30))).unwrap();
        Client { stream, bytes: Vec::new(), room: vec![0u8; 1 << 16] }
    }

    fn ask(&mut self, request: &[u8]) {
        self.stream.write_all(request).expect("no request");
        loop {
            let count = self.stream.read(&mut self.room).expect("no reply");
            assert!(count > 0, "the connection ended");
            self.bytes.extend_from_slice(&self.room[..count]);
            if let Some(whole) = response(&self.bytes) {
                assert_eq!(whole, self.bytes.len(), "bytes behind the reply");
                self.bytes.clear();
                return;
            }
        }
    }
}

fn ask_until(port: u16, request: &[u8], until: Instant) -> Vec<Duration> {
    let mut client = Client::new(port);
    let mut waits = Vec::new();
    for _ in 0..MOST {
        let begun = Instant::now();
        if begun >= until {
            break;
        }
        client.ask(request);
        waits.push(begun.elapsed());
    }
    waits
}

fn measure(port: u16, connections: usize, seconds: f64, target: &str) {
    let request = format!("GET {target} HTTP/1.1\r\nHost: h\r\n\r\n");
    let begun = Instant::now();
    let until = begun + Duration::from_secs_f64(seconds);
    let threads: Vec<_> = (0..connections)
        .map(|_| {
            let request = request.clone();
            thread::spawn(move || {
                let mut all = Vec::new();
                while Instant::now() < until {
                    all.extend(ask_until(port, request.as_bytes(), until));
                }
                all
            })
        })
        .collect();
    let mut waits: Vec<Duration> = threads.into_iter().flat_map(|t| t.join().unwrap()).collect();
    let took = begun.elapsed().as_secs_f64();
    waits.sort();
    let at = |part: f64| waits.get((waits.len() as f64 * part) as usize).map_or(0, |d| d.as_micros());
    println!("{:.0} {} {}", waits.len() as f64 / took, at(0.5), at(0.99));
}

fn post(port: u16, count: usize, target: &str, body: &str) {
    let request = format!("POST {target} HTTP/1.1\r\nHost: h\r\nContent-Length: {}\r\n\r\n{body}", body.len());
    let mut left = count;
    while left > 0 {
        let mut client = Client::new(port);
        for _ in 0..left.min(MOST) {
            client.ask(request.as_bytes());
        }
        left -= left.min(MOST);
    }
}

fn main() {
    let words: Vec<String> = std::env::args().skip(1).collect();
    let words: Vec<&str> = words.iter().map(String::as_str).collect();
    match words[..] {
        [port, "post", count, target, body] => post(port.parse().unwrap(), count.parse().unwrap(), target, body),
        [port, connections, seconds, target] => {
            measure(port.parse().unwrap(), connections.parse().unwrap(), seconds.parse().unwrap(), target)
        }
        _ => panic!("load PORT CONNECTIONS SECONDS TARGET, or load PORT post COUNT TARGET BODY"),
    }
}
