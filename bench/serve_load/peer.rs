// A plain server to compare with: a thread for each connection, heads read by hand, and one topic in answer to each request.
//   peer PORT SECONDS        serves so long, and then ends
use std::io::{Read, Write};
use std::net::{TcpListener, TcpStream};
use std::thread;
use std::time::Duration;

const TOPIC: &str = concat!(
    r#"[{"creation_author":"anonymous","creation_date":"2024-05-01T12:00:00Z","#,
    r#""guid":"00000001-0000-8000-8000-000000000001","server_assigned_id":"1","title":"Pipe"}]"#
);

// How many bytes the request at the front has, where it is whole.
fn request(bytes: &[u8]) -> Option<usize> {
    let head = bytes.windows(4).position(|w| w == b"\r\n\r\n")? + 4;
    let text = std::str::from_utf8(&bytes[..head]).ok()?;
    let length = text.lines().find_map(|l| l.strip_prefix("Content-Length: "));
    let whole = head + length.map_or(Some(0), |n| n.parse::<usize>().ok())?;
    (bytes.len() >= whole).then_some(whole)
}

fn serve(mut stream: TcpStream) -> std::io::Result<()> {
    stream.set_nodelay(true)?;
    let reply = format!(
        "HTTP/1.1 200 OK\r\nContent-Type: application/json\r\nContent-Length: {}\r\n\r\n{TOPIC}",
        TOPIC.len()
    );
    let (mut bytes, mut room) = (Vec::new(), vec![0u8; 1 << 16]);
    loop {
        let count = stream.read(&mut room)?;
        if count == 0 {
            return Ok(());
        }
        bytes.extend_from_slice(&room[..count]);
        while let Some(whole) = request(&bytes) {
            stream.write_all(reply.as_bytes())?;
            bytes.drain(..whole);
        }
    }
}

fn main() {
    let words: Vec<String> = std::env::args().skip(1).collect();
    let [port, seconds] = &words[..] else { panic!("peer PORT SECONDS") };
    let seconds = seconds.parse().expect("a number of seconds");
    let listener = TcpListener::bind(("127.0.0.1", port.parse().expect("a port"))).expect("the port is taken");
    thread::spawn(move || {
        for stream in listener.incoming().flatten() {
            thread::spawn(move || serve(stream));
        }
    });
    thread::sleep(Duration::from_secs(seconds));
}
