//! Checks one text for UTF-8 over and over: utf8 std|vcfh FILE TIMES. Prints the best round's nanoseconds for one text.
use std::{env, fs, process, ptr, time::Instant};

const ROUNDS: u32 = 5;

extern "C" {
    fn vcfh_utf8(bytes: *const u8, length: usize) -> u64;
}

fn by_std(bytes: &[u8]) -> bool {
    std::str::from_utf8(bytes).is_ok()
}

fn by_vcfh(bytes: &[u8]) -> bool {
    unsafe { vcfh_utf8(bytes.as_ptr(), bytes.len()) == 1 }
}

fn main() {
    let words: Vec<String> = env::args().collect();
    let call = if words[1] == "std" { by_std } else { by_vcfh };
    let text = fs::read(&words[2]).expect("a file");
    let bytes: &[u8] = &text;
    let times: u32 = words[3].parse().expect("a number");
    let rounds = (0..if times == 0 { 0 } else { ROUNDS }).map(|_| {
        let start = Instant::now();
        for _ in 0..times {
            // read anew each time, so that no call is left out
            if !call(unsafe { ptr::read_volatile(&bytes) }) {
                process::exit(1);
            }
        }
        start.elapsed().as_nanos() / u128::from(times)
    });
    if let Some(best) = rounds.min() {
        println!("{best}");
    }
}
