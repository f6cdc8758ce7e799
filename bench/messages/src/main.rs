//! Reads and writes whole responses, by the Rust crate and by trust-dns-proto 0.22.
//!
//! `--one TASK CONTENDER COUNT FILE` does a task so many times over the message in a file, in hexadecimal, and prints a checksum,
//! which is the same for both: of each record that is read, the octets of its names and of its other data, and its time to live; and
//! of a message that is written, its octets. `bench/messages/run` counts the instructions.
mod ours;
mod theirs;

/// What is done once: a response read, with all its records; a message that was made written; and one made and written.
pub enum Task {
    Read,
    Write,
    Make,
}

/// Does something so many times, and returns the sum of what it returns.
pub fn repeat(count: u64, once: impl FnMut() -> u64) -> u64 {
    std::iter::repeat_with(once).take(count as usize).fold(0, u64::wrapping_add)
}

/// What `std::hint::black_box` is for, which Debian 12's compiler does not offer.
pub fn black_box<T>(value: T) -> T {
    // SAFETY: the value is read once, and what it was read from is forgotten.
    unsafe {
        let same = std::ptr::read_volatile(&value);
        std::mem::forget(value);
        same
    }
}

fn octets(hex: &str) -> Vec<u8> {
    let digits: Vec<char> = hex.chars().filter(|c| !c.is_whitespace()).collect();
    let two = |digits: &[char]| u8::from_str_radix(&digits.iter().collect::<String>(), 16).expect("hexadecimal digits");
    digits.chunks(2).map(two).collect()
}

fn main() {
    let words: Vec<String> = std::env::args().skip(1).collect();
    match words.iter().map(String::as_str).collect::<Vec<_>>()[..] {
        ["--one", task, contender, count, file] => {
            let message = octets(&std::fs::read_to_string(file).expect("a file"));
            let task = match task {
                "read" => Task::Read,
                "write" => Task::Write,
                "make" => Task::Make,
                _ => panic!("a task"),
            };
            let run = if contender == "ours" { ours::run } else { theirs::run };
            println!("{}", run(&task, &message, count.parse().expect("a number")));
        }
        _ => panic!("usage: dnw-bench-messages --one read|write|make ours|theirs COUNT FILE"),
    }
}
