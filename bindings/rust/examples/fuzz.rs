//! The long random run: cases of every call in turn, until stopped or for so many seconds. The first that fails is
//! written to a file of tests/cases, which the tests replay.
//!
//!     tests/fuzz [SECONDS [SEED]]
#[allow(dead_code)]
#[path = "../tests/support/mod.rs"]
mod support;

use std::time::{Duration, Instant, SystemTime};
use std::{env, fs, panic, process};
use support::case::{self, CALLS};
use support::generate::{self, Rng};

fn argument(place: usize) -> Option<u64> {
    env::args().nth(place).map(|text| match text.parse() {
        Ok(number) => number,
        Err(_) => {
            eprintln!("usage: tests/fuzz [SECONDS [SEED]]; 0 seconds: until stopped");
            process::exit(2);
        }
    })
}

fn main() {
    let seconds = argument(1).unwrap_or(0);
    let since = SystemTime::now().duration_since(SystemTime::UNIX_EPOCH).expect("a clock after 1970");
    let seed = argument(2).unwrap_or(since.as_secs());
    println!("seed {seed}");
    let begun = Instant::now();
    let (mut told, mut i) = (begun, 0);
    while seconds == 0 || begun.elapsed() < Duration::from_secs(seconds) {
        let call = CALLS[(i % CALLS.len() as u64) as usize];
        let case = generate::case(&mut Rng::of_case(seed, i), call);
        let result = panic::catch_unwind(|| support::agreed(&case))
            .unwrap_or_else(|_| Err("the reference or the binding broke off".to_string()));
        if let Err(fault) = result {
            println!("case {i}: {fault}");
            let path = case::folder().join(format!("found-{seed}-{i}.hex"));
            let text = format!("# Seed {seed}, case {i}.\n{}", case.text(None));
            fs::write(&path, text).expect("tests/cases can be written");
            println!("written to tests/cases/found-{seed}-{i}.hex");
            process::exit(1);
        }
        i += 1;
        if told.elapsed() > Duration::from_secs(10) {
            told = Instant::now();
            println!("{i} cases in {} s", begun.elapsed().as_secs());
        }
    }
    println!("{i} cases, no disagreement");
}
