//! The tasks of `bench` through the Rust crate, and through the C functions as a C program calls them.
//!
//! `--list` prints the tasks, each with a number of repetitions and of operations in one; `--one TASK BINDING COUNT` does a task
//! so many times and prints its checksum, which is that of `bench`. `bench/bindings/run` counts its instructions.
mod direct;
#[allow(dead_code)] // what a task is, for people
#[path = "../../src/inputs.rs"]
mod inputs;
mod typed;

use inputs::Task;

type Binding = fn(&Task, u64) -> Option<u64>;
const BINDINGS: [(&str, Binding); 3] = [("c", direct::run), ("rust", typed::run), ("rust-reusing", typed::run_reusing)];

/// Does something so many times, and returns the sum of what it returns.
fn repeat(count: u64, once: impl FnMut() -> u64) -> u64 {
    std::iter::repeat_with(once).take(count as usize).fold(0, u64::wrapping_add)
}

fn sum<T>(items: impl IntoIterator<Item = T>, value: impl FnMut(T) -> u64) -> u64 {
    items.into_iter().map(value).fold(0, u64::wrapping_add)
}

/// The tasks that a binding does: each is a row of a table in docs/PERFORMANCE.md.
const TASKS: [&str; 12] = [
    "read-plain",
    "read-message",
    "read-deep",
    "emit-1",
    "emit-20",
    "parse",
    "print",
    "compare",
    "sort",
    "hash",
    "read-records",
    "emit-records",
];

/// What is added for a failure.
const FAILED: u64 = 1 << 40;

fn main() {
    let words: Vec<String> = std::env::args().skip(1).collect();
    match words.iter().map(String::as_str).collect::<Vec<_>>()[..] {
        ["--list"] => {
            for task in inputs::tasks(&|name| TASKS.contains(&name)) {
                for (name, _) in BINDINGS.iter().filter(|(_, binding)| binding(&task, 0).is_some()) {
                    println!("{} {} {name} {} {}", task.name, task.few, task.operations, task.what);
                }
            }
        }
        ["--one", name, binding, count] => {
            let task = inputs::tasks(&|it| it == name).pop().expect("a task");
            let (_, run) = BINDINGS.iter().find(|(name, _)| *name == binding).expect("a binding");
            println!("{}", run(&task, count.parse().expect("a number")).expect("a task of this binding"));
        }
        _ => panic!("usage: dnw-bench-bindings --list | --one TASK BINDING COUNT"),
    }
}
