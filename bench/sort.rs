// One list of int64 numbers in order, by the sort of Rust's standard library: what `sort.py` times
// beside the program's. Reads the numbers, as little-endian bytes, from a file, sorts them where a
// second word asks for it, and prints the first and the last.
use std::env;
use std::fs;

fn main() {
    let words: Vec<String> = env::args().collect();
    let bytes = fs::read(&words[1]).expect("the file of the numbers");
    let (groups, _) = bytes.as_chunks::<8>();
    let mut numbers: Vec<i64> = groups.iter().map(|group| i64::from_le_bytes(*group)).collect();
    if words.len() > 2 {
        numbers.sort_unstable();
    }
    println!("{} {}", numbers[0], numbers[numbers.len() - 1]);
}
