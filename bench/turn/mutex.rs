// The counter of `turn.sh` behind a plain Mutex, in plain Rust: the baseline for the turn.
// Arguments: the number of threads, of calls by each, and of steps of work in each call. Prints the nanoseconds.
use std::sync::Mutex;
use std::time::Instant;

#[derive(Clone, Copy)]
#[allow(dead_code)]
struct Stamp {
    turn: u64,
    pass: u32,
    call: u64,
}

struct Counter {
    work: u32,
    sum: u64,
    calls: Vec<Stamp>,
}

impl Counter {
    fn act(&mut self, pass: u32, call: u64) -> u64 {
        let mut x = self.sum;
        for _ in 0..self.work {
            x = x.wrapping_mul(6364136223846793005).wrapping_add(1442695040888963407);
        }
        self.sum = x;
        self.calls.push(Stamp {
            turn: self.calls.len() as u64 + 1,
            pass,
            call,
        });
        self.calls.len() as u64
    }
}

fn main() {
    let numbers: Vec<u32> = std::env::args().skip(1).map(|a| a.parse().unwrap()).collect();
    let (threads, calls, work) = (numbers[0], numbers[1], numbers[2]);
    let counter = Mutex::new(Counter {
        work,
        sum: 1,
        calls: Vec::new(),
    });
    let start = Instant::now();
    std::thread::scope(|scope| {
        for pass in 0..threads {
            let counter = &counter;
            scope.spawn(move || {
                let mut last = 0;
                for call in 0..calls {
                    let reply = counter.lock().unwrap().act(pass, call as u64);
                    assert!(reply > last);
                    last = reply;
                }
            });
        }
    });
    let time = start.elapsed();
    let counter = counter.into_inner().unwrap();
    assert_eq!(counter.calls.len() as u64, threads as u64 * calls as u64);
    println!("{}", time.as_nanos());
}
