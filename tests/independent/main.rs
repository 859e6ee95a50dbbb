//! Compares the proved engine with an independent one, whole votes with Algorithm 1, and what the
//! program `bench` prints with an independent report.
//!
//!   compare [-v] TICKS SEED -- COMMAND..            the command that begins the driver
//!   compare files [-v] [-a] FILES SEED -- COMMAND.. the command that begins `bench`
//!   compare write FOLDER FILES SEED                 writes these files, and their reports, there
//!   compare report                                  prints the report of standard input's run file
//!   compare states                                  prints its heads after each round
//!
//! -v prints what was met. The last line has the number of differences. Status 1 at the first
//! difference, which is made as short as it can be and printed before; with -a all files are
//! compared and those that differ counted. Status 2 if the comparer cannot run.

mod adversary;
mod algorithm;
mod bench;
mod calls;
mod chance;
mod compare_engines;
mod compare_files;
mod damage;
mod demands;
mod draft;
mod edges;
mod engine;
mod file_tally;
mod files;
mod forged_votes;
mod forger;
mod habits;
mod lists;
mod losses;
mod pipe;
mod program;
mod runfile;
mod shrink_call;
mod shrink_file;
mod shrink_script;
mod states;
mod tally;
mod tell;
mod votes;
mod words;

use compare_engines::Order;
use std::io::Read;
use std::process::exit;

fn main() {
    let mut words: Vec<String> = std::env::args().skip(1).collect();
    match words.first().map(String::as_str) {
        Some("files") => compare_files(words.split_off(1)),
        Some("write") if words.len() == 4 => write_files(&words[1..]),
        Some("report") if words.len() == 1 => print_of(bench::report),
        Some("states") if words.len() == 1 => print_of(states::states),
        _ => compare_engines(words),
    }
}

/// What is to be printed for the run file on standard input.
fn print_of(text: impl Fn(&[u8]) -> String) {
    let mut file = Vec::new();
    if let Err(error) = std::io::stdin().read_to_end(&mut file) {
        eprintln!("standard input cannot be read: {error}");
        exit(2);
    }
    print!("{}", text(&file));
}

fn write_files(words: &[String]) {
    let (Ok(files), Ok(seed)) = (words[1].parse(), words[2].parse()) else {
        eprintln!("usage: compare write FOLDER FILES SEED");
        exit(2);
    };
    if let Err(error) = compare_files::write(&words[0], files, seed) {
        eprintln!("the files cannot be written to {}: {error}", words[0]);
        exit(2);
    }
}

fn compare_files(mut words: Vec<String>) {
    let mut flag = |name: &str| {
        let place = words.iter().take_while(|&word| word != "--").position(|word| word == name);
        place.map(|place| words.remove(place)).is_some()
    };
    let (verbose, count_all) = (flag("-v"), flag("-a"));
    let Some(Order { ticks: files, seed, command, .. }) = read_order(words) else {
        eprintln!("usage: compare files [-v] [-a] FILES SEED -- COMMAND..");
        exit(2);
    };
    let order = compare_files::Order { verbose, count_all, files, seed, command };
    let differences = compare_files::compare(&order).unwrap_or_else(|error| {
        eprintln!("the program does not begin: {error}");
        exit(2);
    });
    exit((differences > 0) as i32);
}

fn compare_engines(words: Vec<String>) {
    let Some(order) = read_order(words) else {
        eprintln!("usage: compare [-v] TICKS SEED -- COMMAND..");
        exit(2);
    };
    let same = compare_engines::compare(&order).unwrap_or_else(|error| {
        eprintln!("the driver does not run: {error}");
        exit(2);
    });
    exit(!same as i32);
}

fn read_order(mut words: Vec<String>) -> Option<Order> {
    let split = words.iter().position(|word| word == "--")?;
    let command = words.split_off(split + 1);
    let verbose = words[0] == "-v";
    let [ticks, seed] = &words[verbose as usize..split] else {
        return None;
    };
    let (ticks, seed) = (ticks.parse().ok()?, seed.parse().ok()?);
    (!command.is_empty()).then_some(Order { verbose, ticks, seed, command })
}
