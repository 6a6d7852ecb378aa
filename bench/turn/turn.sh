#!/bin/sh
# Calls a second over a turn, by 1, 2, 4 and 8 threads, beside a plain Mutex round the same counter in plain Rust.
# Usage: bench/turn/turn.sh [CALLS]. CALLS is the number of calls by each thread (1000).
# Wants rt and rustc. It makes a repository of its own in a temporary folder, with a program over `book_turn`.
set -eu
here=$(cd "$(dirname "$0")" && pwd)
top=$(cd "$here/../.." && pwd)
calls=${1:-1000}
work=$(mktemp -d)
trap 'rm -rf "$work"' EXIT
mkdir -p "$work/crates/turn_bench/src" "$work/crates/turn_bench/proofs/several" "$work/crates/book_turn"
for part in src specs proofs; do
    cp -r "$top/crates/book_turn/$part" "$work/crates/book_turn/$part"
done
cp "$top/HANDLES" "$work/HANDLES"
printf 'book_turn: atomic_table\nturn_bench: book_turn\n' > "$work/crates.txt"
cat > "$work/crates/turn_bench/src/main.rt" <<'EOF'
//! Times calls over a turn. Arguments: the number of threads, of calls by each, and of steps of work in each call.
#![tactic(auto)]

ghost use Rattle.std.specs.Prelude.{ℕ, ◌≡◌, ◌≤◌, ◌<◌, ◌+◌, [], length, Some, None, IfSome, All};
ghost use Rattle.book_turn.specs.Passes.{BelongsTo, KeepsNumbers};

use book_turn::object::{SeqObject, Stamp};
use book_turn::pass::Pass;
use book_turn::turn::Turn;
use std::alloc::{AllocError, Global};
use std::sync::Wait;
use std::thread::{Threads, for_each_mut};
use std::time::Instant;
use std::{env, io};

#[derive(Drop)]
struct Counter {
    work: u32,
    sum: u64,
    calls: Vec<Stamp>,
}

fn stir(sum: u64, work: u32) -> u64 {
    let mut x = sum;
    for _ in 0..work {
        x = x
            .wrapping_mul(6364136223846793005)
            .wrapping_add(1442695040888963407);
    }
    x
}

impl SeqObject for Counter {
    type Request = ();

    type Reply = u64;

    type Entry = Stamp;

    type Settings = ();

    ghost settings = { λ _. tt };

    ghost journal = { λ c. c.calls.items };

    ghost stamp_of = { λ e. e };

    ghost reply_of = { λ _ h _ _. length h + 1 };

    ghost added_by = { λ _ _ st _. Some st };

    ghost is_legal = { λ _ _ _. Unit {0} };

    fn act(&mut self, stamp: Stamp, _request: ()) -> Result<u64, AllocError> {
        self.calls.push(stamp)?;
        self.sum = stir(self.sum, self.work);
        Ok(self.calls.len() as u64)
    }

    ghost legal_later = { λ s h more r may. tt };

    ghost stamped = { λ s h st r e is. Prim.cc };
}

fn several<R: Wait>(rt: &R, turn: &Turn<Counter>, pass: &mut Pass<Counter>, calls: u32)
    requires { BelongsTo turn.now pass.old }
    ensures { BelongsTo turn.now pass.new }
{
    for _ in 0..calls {
        let _ = turn.call(rt, pass, ());
    }
}

fn lanes<R: Threads + Wait + Sync>(
    rt: &R,
    turn: &Turn<Counter>,
    passes: &mut [Pass<Counter>],
    threads: usize,
    calls: u32,
)
    requires threads { 0 < threads }
    requires own { All (BelongsTo turn.now) passes.old }
{
    for_each_mut(
        rt,
        passes,
        threads,
        &|_, pass: &mut Pass<Counter>|
            requires { BelongsTo turn.now pass.old }
            ensures { BelongsTo turn.entry.now pass.new }
        { several(rt, turn, pass, calls) },
    );
}

fn number(args: &mut env::Args) -> Option<u32> {
    args.next()?.as_str().parse::<u32>().ok()
}

fn main(rt: HostRuntime) -> io::Result<()> {
    let mut args = env::args(&rt)?;
    let _name = args.next();
    let (Some(threads), Some(calls), Some(work)) = (number(&mut args), number(&mut args), number(&mut args)) else {
        return Ok(());
    };
    if threads == 0 || threads > 64 {
        return Ok(());
    }
    let alloc: Global = rt.alloc();
    let counter = Counter {
        work,
        sum: 1,
        calls: Vec::new(alloc),
    };
    let Ok((turn, mut passes)) = Turn::new(alloc, counter, threads) else {
        return Ok(());
    };
    let start = Instant::now(&rt)?;
    lanes(&rt, &turn, passes.as_mut_slice(), threads as usize, calls);
    let time = start.elapsed(&rt)?;
    println!(rt; "{}", time.as_nanos())?;
    Ok(())
}
EOF
cat > "$work/crates/turn_bench/proofs/several/Invariants.antt" <<'EOF'
use Rattle.book_turn.specs.Passes.{BelongsTo}
use Rattle.turn_bench.proofs.several.Given as goal

abbrev pub invariant-loop : goal.invariant-loop
invariant-loop g l = BelongsTo l.fn.turn l.pass
EOF
(cd "$work/crates/turn_bench" && rt run -- 1 1 0) > "$work/build.log" 2>&1 || { tail -40 "$work/build.log"; exit 1; }
rustc -O -o "$work/mutex" "$here/mutex.rs"
python3 "$here/table.py" "$work/crates/turn_bench/out/turn_bench" "$work/mutex" "$calls"
