//! The cases of `crates/bench`, and a tee, over the Rust crate `tracing-appender`.
use std::io::{BufRead, Error, ErrorKind, Result, Write};
use std::sync::atomic::{AtomicU64, Ordering::SeqCst};
use std::sync::{Arc, Barrier};
use std::time::{Duration, Instant};
use std::{env, fs, io, thread};
use tracing_appender::non_blocking::{NonBlocking, NonBlockingBuilder, WorkerGuard};

const USAGE: &str = "\
usage: compare tee FILE
       compare waiting|lossy|each-waiting|each-lossy|latency ROUNDS LINES SENDERS BYTES LIMIT
tee: copies each line of standard input to FILE, through a queue of 1,024 lines
the others: the columns and the cases of crates/bench";

fn main() -> Result<()> {
    let words: Vec<String> = env::args().skip(1).collect();
    let words: Vec<&str> = words.iter().map(String::as_str).collect();
    match words[..] {
        ["tee", file] => tee(file),
        [mode @ ("waiting" | "lossy" | "each-waiting" | "each-lossy" | "latency"), rounds, lines, senders, bytes, limit] => {
            let case = Case {
                mode,
                lines: number(lines)?,
                senders: number(senders)?,
                bytes: number(bytes)?,
                limit: number(limit)?,
            };
            for round in 0..number(rounds)? {
                if mode == "latency" {
                    latency(&case, round);
                } else {
                    measure(&case, round)?;
                }
            }
            Ok(())
        }
        _ => {
            println!("{USAGE}");
            Ok(())
        }
    }
}

fn number(word: &str) -> Result<usize> {
    word.parse()
        .map_err(|_| Error::from(ErrorKind::InvalidInput))
}

fn start(log: impl Write + Send + 'static, limit: usize, lossy: bool) -> (NonBlocking, WorkerGuard) {
    NonBlockingBuilder::default()
        .buffered_lines_limit(limit)
        .lossy(lossy)
        .finish(log)
}

fn tee(file: &str) -> Result<()> {
    let log = fs::OpenOptions::new().create(true).append(true).open(file)?;
    let (mut lines, _guard) = start(log, 1024, false);
    let mut input = io::stdin().lock();
    let mut line = Vec::new();
    while input.read_until(b'\n', &mut line)? > 0 {
        lines.write_all(&line)?;
        line.clear();
    }
    Ok(())
}

struct Case<'a> {
    mode: &'a str,
    lines: usize,
    senders: usize,
    bytes: usize,
    limit: usize,
}

// Counts bytes, and publishes the count at each flush.
struct Sink {
    bytes: u64,
    told: Arc<AtomicU64>,
}

impl Write for Sink {
    fn write(&mut self, buf: &[u8]) -> Result<usize> {
        self.bytes += buf.len() as u64;
        Ok(buf.len())
    }

    fn flush(&mut self) -> Result<()> {
        self.told.store(self.bytes, SeqCst);
        Ok(())
    }
}

// Prints the time of a line, from the first one that is sent until the last one is written.
fn measure(case: &Case, round: usize) -> Result<()> {
    let told = Arc::new(AtomicU64::new(0));
    let sink = Sink {
        bytes: 0,
        told: told.clone(),
    };
    let (sender, guard) = start(sink, case.limit, case.mode.ends_with("lossy"));
    let drops = sender.error_counter();
    let start = send_all(sender, case);
    drop(guard);
    let nanos = start.elapsed().as_nanos();
    let lines = case.senders * case.lines;
    let dropped = drops.dropped_lines();
    if told.load(SeqCst) != ((lines - dropped) * case.bytes) as u64 {
        return Err(Error::from(ErrorKind::InvalidData));
    }
    println!(
        "rust,{},{},{},{},{round},{lines},{},{dropped}",
        case.mode,
        case.limit,
        case.bytes,
        case.senders,
        nanos * 10 / lines as u128
    );
    Ok(())
}

// Prints the times that half, 99 % and 99.9 % of the writes of all threads don't exceed.
fn latency(case: &Case, round: usize) {
    let sink = Sink {
        bytes: 0,
        told: Arc::default(),
    };
    let (sender, guard) = start(sink, case.limit, true);
    let drops = sender.error_counter();
    let threads: Vec<_> = (0..case.senders)
        .map(|_| {
            let (mut sender, count) = (sender.clone(), case.lines);
            let line = vec![b'x'; case.bytes];
            let mut times = Vec::with_capacity(count);
            thread::spawn(move || {
                for _ in 0..count {
                    let start = Instant::now();
                    sender.write_all(&line).expect("a worker");
                    times.push(start.elapsed().as_nanos());
                }
                times
            })
        })
        .collect();
    drop(sender);
    let mut times: Vec<_> = threads
        .into_iter()
        .flat_map(|thread| thread.join().expect("no panic"))
        .collect();
    drop(guard);
    times.sort_unstable();
    for (mode, thousandths) in [("p50", 500), ("p99", 990), ("p99.9", 999)] {
        println!(
            "rust,{mode},{},{},{},{round},{},{},{}",
            case.limit,
            case.bytes,
            case.senders,
            times.len(),
            times[times.len() / 1000 * thousandths] * 10,
            drops.dropped_lines()
        );
    }
}

// Sends the lines of all threads, and returns the moment at which they began.
fn send_all(sender: NonBlocking, case: &Case) -> Instant {
    let gate = Arc::new(Barrier::new(case.senders + 1));
    let clones = case.mode.starts_with("each");
    let threads: Vec<_> = (0..case.senders)
        .map(|_| {
            let (mut sender, gate, count) = (sender.clone(), gate.clone(), case.lines);
            let line = vec![b'x'; case.bytes];
            thread::spawn(move || {
                gate.wait();
                for _ in 0..count {
                    let sent = if clones {
                        sender.clone().write_all(&line)
                    } else {
                        sender.write_all(&line)
                    };
                    sent.expect("a worker");
                }
            })
        })
        .collect();
    drop(sender);
    // Time for all threads to reach the gate.
    thread::sleep(Duration::from_millis(2));
    let start = Instant::now();
    gate.wait();
    for thread in threads {
        thread.join().expect("no panic");
    }
    start
}
