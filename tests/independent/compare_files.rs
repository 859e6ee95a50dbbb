//! Compares what the program `bench` prints with the independent report, file by file.

use crate::bench;
use crate::chance::Chance;
use crate::damage::Case;
use crate::edges;
use crate::file_tally::FileTally;
use crate::files;
use crate::program::{Printed, Program};
use crate::shrink_file::shortest;

pub struct Order {
    pub verbose: bool,
    /// Goes through all files, and only counts those that differ.
    pub count_all: bool,
    pub files: usize,
    pub seed: u64,
    pub command: Vec<String>,
}

/// The number of files that differ; without `count_all` no more than the first. An error where the
/// program cannot be run at all.
pub fn compare(order: &Order) -> std::io::Result<usize> {
    let program = Program(order.command.clone());
    let mut tally = FileTally::default();
    let mut differences = 0;
    for case in cases(order.files, order.seed) {
        let file = case.bytes();
        let expected = Printed::well(bench::report(&file));
        tally.count(&file);
        if program.run(&file)? == expected {
            continue;
        }
        differences += 1;
        if !order.count_all {
            tell(&program, case)?;
            break;
        }
    }
    if order.verbose {
        tally.print();
    }
    let words = if differences == 1 { "difference" } else { "differences" };
    println!("files: {} compared, {differences} {words} (seed {})", tally.files, order.seed);
    Ok(differences)
}

/// The edges first, then files invented from the seed.
fn cases(files: usize, seed: u64) -> impl Iterator<Item = Case> {
    let mut chance = Chance::new(seed);
    let invented = std::iter::from_fn(move || Some(files::invent(&mut chance)));
    edges::all().into_iter().chain(invented).take(files)
}

/// Writes the files and their reports to a folder, for others to compare with.
pub fn write(folder: &str, files: usize, seed: u64) -> std::io::Result<()> {
    for (index, case) in cases(files, seed).enumerate() {
        let file = case.bytes();
        std::fs::write(format!("{folder}/{index:05}.report"), bench::report(&file))?;
        std::fs::write(format!("{folder}/{index:05}.run"), file)?;
    }
    Ok(())
}

/// Prints the shortest file found that still shows a difference, and both reports.
fn tell(program: &Program, case: Case) -> std::io::Result<()> {
    let mut differs = |file: &[u8]| {
        program.run(file).is_ok_and(|printed| printed != Printed::well(bench::report(file)))
    };
    let file = shortest(case, &mut differs);
    let kept = std::env::current_exe()?.with_file_name("difference.run");
    std::fs::write(&kept, &file)?;
    println!("difference: a file of {} bytes, kept as {}", file.len(), kept.display());
    print_hex(&file);
    print_printed("the program bench", &program.run(&file)?);
    print_printed("the independent bench", &Printed::well(bench::report(&file)));
    Ok(())
}

/// Of a long file only the first bytes.
fn print_hex(file: &[u8]) {
    for line in file.chunks(32).take(40) {
        let pairs: Vec<String> = line.iter().map(|byte| format!("{byte:02x}")).collect();
        println!("  {}", pairs.join(" "));
    }
    if file.len() > 40 * 32 {
        println!("  ..");
    }
}

fn print_printed(who: &str, printed: &Printed) {
    println!("  {who}:");
    let text = String::from_utf8_lossy(&printed.text);
    text.split_inclusive('\n').for_each(|line| println!("    {}", line.escape_debug()));
    if let Some(ended) = &printed.ended {
        println!("    it {ended}");
    }
}
