//! Times dns-names-wire beside trust-dns-proto 0.22, in one process and on the same inputs.
//!
//! A contender does a task `count` times in a call and returns a checksum, as `include/dnw_bench.h` says. The time
//! of a call with count 0, which does the set-up alone, is taken off. The contenders take turns, round by round.
mod inputs;
mod ours;
mod theirs;

use inputs::{Kind, Task};
use std::time::Instant;

const ROUNDS: usize = 31;
const NANOSECONDS_A_ROUND: f64 = 4e6;

/// What `std::hint::black_box` is for, which Debian 12's compiler does not offer.
pub fn black_box<T>(value: T) -> T {
    // SAFETY: the value is read once, and what it was read from is forgotten.
    unsafe {
        let same = std::ptr::read_volatile(&value);
        std::mem::forget(value);
        same
    }
}

type Contender = fn(&Task, u64) -> u64;
const CONTENDERS: [(&str, Contender); 2] = [("dns-names-wire", ours::run), ("trust-dns-0.22", theirs::run)];

fn time(contender: Contender, task: &Task, count: u64) -> f64 {
    let start = Instant::now();
    black_box(contender(task, count));
    start.elapsed().as_nanos() as f64
}

/// The median and the least.
fn summary(mut times: Vec<f64>) -> (f64, f64) {
    times.sort_by(f64::total_cmp);
    (times[times.len() / 2], times[0])
}

/// How often a contender does a task in a round, and what its set-up takes.
fn calibrate(contender: Contender, task: &Task) -> (u64, f64) {
    let (setup, _) = summary((0..5).map(|_| time(contender, task, 0)).collect());
    let mut count = 1u64;
    while time(contender, task, count) - setup < NANOSECONDS_A_ROUND && count < 1 << 28 {
        count *= 2;
    }
    (count, setup)
}

/// What each contender's answer is, if they are not the same: then their work was not, and no ratio says anything.
///
/// trust-dns compresses without limits, so it writes fewer bytes for many names. Hashes are the libraries' own.
fn difference(task: &Task) -> Option<String> {
    let sums: Vec<_> = CONTENDERS.iter().map(|(_, run)| run(task, 1)).collect();
    if sums[0] == sums[1] || matches!(task.kind, Kind::Hash) {
        return None;
    }
    Some(format!("not the same work: checksums {} and {}", sums[0], sums[1]))
}

fn measure(task: &Task) {
    let plans: Vec<_> = CONTENDERS.iter().map(|(_, run)| calibrate(*run, task)).collect();
    let mut times = vec![vec![]; CONTENDERS.len()];
    for _ in 0..ROUNDS {
        for (i, (_, run)) in CONTENDERS.iter().enumerate() {
            let (count, setup) = plans[i];
            times[i].push((time(*run, task, count) - setup) / (count as f64 * task.operations as f64));
        }
    }
    println!("{}: {}", task.name, task.what);
    let (others_median, others_least) = summary(times[1].clone());
    let difference = difference(task);
    for (i, (name, _)) in CONTENDERS.iter().enumerate() {
        let (median, least) = summary(times[i].clone());
        print!("    {name:<16}{median:>12.2} ns ({least:.2})");
        match difference {
            None => println!("   x{:.2} (x{:.2})", median / others_median, least / others_least),
            Some(_) => println!(),
        }
    }
    if let Some(difference) = difference {
        println!("    {difference}");
    }
}

/// Tasks over a million names take minutes each under valgrind, so they are done only if they are asked for.
fn is_bulk(name: &str) -> bool {
    name.starts_with("bulk-") || name.starts_with("table-")
}

/// A line for each task: its name, how often it is done if instructions are counted, its operations, and why the
/// contenders cannot be compared, if they cannot.
fn list(tasks: &[Task]) {
    for task in tasks {
        println!("{}\t{}\t{}\t{}", task.name, task.few, task.operations, difference(task).unwrap_or_default());
    }
}

/// Writes the octets of a task into a file, and where its names start into FILE.starts, for a program that reads them there.
fn write_input(task: &Task, file: &str) {
    let starts: String = task.starts.iter().map(|start| format!("{start}\n")).collect();
    std::fs::write(file, &task.bytes).expect("a file that can be written");
    std::fs::write(format!("{file}.starts"), starts).expect("a file that can be written");
}

fn main() {
    let words: Vec<String> = std::env::args().skip(1).collect();
    let one = |name: &str| inputs::tasks(&|it| it == name).pop().expect("a task");
    match words.iter().map(String::as_str).collect::<Vec<_>>()[..] {
        [] => inputs::tasks(&|name| !is_bulk(name)).iter().for_each(measure),
        ["--list"] => list(&inputs::tasks(&|name| !is_bulk(name))),
        ["--list", "bulk"] => list(&inputs::tasks(&is_bulk)),
        ["--input", name, file] => write_input(&one(name), file),
        ["--one", name, who, count] => {
            let (_, run) = CONTENDERS.iter().find(|(n, _)| *n == who).expect("a contender");
            println!("{}", run(&one(name), count.parse().expect("a number")));
        }
        _ => panic!("usage: dnw-bench [--list [bulk] | --input TASK FILE | --one TASK CONTENDER COUNT]"),
    }
}
