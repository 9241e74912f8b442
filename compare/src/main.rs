//! The comparison of the proved calls with the Rust that they carry over. compare/build makes it; see compare/README.md.

mod archive;
mod bench;
mod check;
mod cuts;
mod exhaustive;
mod flags;
mod full;
mod full_rows;
mod generate;
mod generate_full;
mod input;
mod plant;
mod proved;
mod proved_archive;
mod proved_full;
mod proved_fullrows;
mod proved_tables;
mod sample;
mod sample_full;
mod shrink;
mod util_calls;

use check::Checker;
use generate::{Generator, Rng};
use generate_full::FullGenerator;
use input::Input;
use std::time::Instant;

const USAGE: &str = "usage: compare run [--seed S] [--count N] [--seconds T] [--full]   seeded inputs, N of them or as many as T seconds allow
       compare exhaustive [--few]                     all short texts and some long ones, all flags, chains around the limit, segments and blocks around 2^64, all cuts
       compare cuts [--seed S] [--count N]            listings of cut images, against the whole ones filtered by paths
       compare one LINE                               the input of one printed line
       compare sample OUT [DIR]                       inputs with the Rust's answers; in DIR as stdin and stdout of a program
       compare sample-full OUT [DIR]                  the same of bodies, blocks, entries and fields
       compare bench [texts | rows | full]            nanoseconds per text, row or entry on both sides; of texts, of rows and names, or of all else
       --unshrunk with run or exhaustive              a difference is printed without its input";

/// Prints the difference with the smallest input that shows one (without it for `--unshrunk`), and ends the run.
pub fn report(input: &Input, what: &str) -> ! {
    println!("difference: {what}");
    if std::env::args().any(|a| a == "--unshrunk") {
        std::process::exit(1);
    }
    let small = shrink::smallest(input);
    if let Err(what) = Checker::always().input(&small) {
        println!("smallest: {what}");
        println!("{}", small.line());
    }
    std::process::exit(1);
}

/// The result of comparing the readers and flag words by themselves: how many calls, or a difference, which ends the run.
fn told(calls: Result<u64, String>) -> u64 {
    calls.unwrap_or_else(|what| {
        println!("difference: {what}");
        std::process::exit(1);
    })
}

fn number(args: &[String], name: &str) -> Option<u64> {
    let at = args.iter().position(|a| a == name)?;
    match args.get(at + 1).and_then(|n| n.parse().ok()) {
        Some(n) => Some(n),
        None => usage(),
    }
}

fn usage() -> ! {
    eprintln!("{USAGE}");
    std::process::exit(2);
}

/// Ends the run unless each word is one of these options, those with a number followed by one.
fn only(args: &[String], numbers: &[&str], flags: &[&str]) {
    let mut rest = args.iter();
    while let Some(word) = rest.next() {
        let known = if numbers.contains(&word.as_str()) {
            rest.next().is_some_and(|n| n.parse::<u64>().is_ok())
        } else {
            flags.contains(&word.as_str())
        };
        if !known {
            eprintln!("compare: not an option here, or without its number: {word}");
            usage();
        }
    }
}

/// The words of a command that takes at most a given number of them, none of them an option.
fn words(args: &[String], most: usize) -> &[String] {
    if args.len() > most || args.iter().any(|a| a.starts_with('-')) {
        usage();
    }
    args
}

fn run(args: &[String]) {
    only(args, &["--seed", "--count", "--seconds"], &["--full", "--unshrunk"]);
    let seed = number(args, "--seed").unwrap_or(1);
    let seconds = number(args, "--seconds");
    let count = number(args, "--count").unwrap_or(if seconds.is_some() {
        u64::MAX
    } else {
        1_000_000
    });
    let only_full = args.iter().any(|a| a == "--full");
    let start = Instant::now();
    let mut checker = Checker::default();
    let mut generator = Generator::default();
    let mut full = FullGenerator::default();
    let mut input = Input::default();
    let mut words = 0;
    for i in 0..count {
        if i % 4096 == 0 && seconds.is_some_and(|s| start.elapsed().as_secs() >= s) {
            break;
        }
        // Inputs for rows, contexts and names, for which the rows' own bodies and blocks are compared too; every fourth is made for
        // bodies, blocks, entries and fields, and all of it is compared.
        let same = if only_full || i % 4 == 3 {
            full.make(seed, i, &mut input);
            checker.input(&input)
        } else {
            generator.make(seed, i, &mut input);
            checker.basic(&input)
        };
        if let Err(what) = same {
            report(&input, &format!("seed {seed}, number {i}: {what}"));
        }
        let mut rng = Rng::new(!seed, i);
        words += told(util_calls::seeded(&mut rng, &input)) + told(flags::seeded(&mut rng));
    }
    let time = start.elapsed().as_secs_f64();
    println!(
        "seed {seed}: {}, {words} calls on numbers and flag words; no difference; {time:.1} s",
        checker.counts.line()
    );
}

fn main() {
    let args: Vec<String> = std::env::args().skip(1).collect();
    let Some((command, args)) = args.split_first() else {
        usage();
    };
    match command.as_str() {
        "run" => run(args),
        "exhaustive" => {
            only(args, &[], &["--few", "--unshrunk"]);
            let start = Instant::now();
            let calls = told(util_calls::exhaustive()) + told(flags::exhaustive());
            let time = start.elapsed().as_secs_f64();
            println!(
                "exhaustive: {calls} calls on numbers and flag words; no difference; {time:.1} s"
            );
            exhaustive::run(args.iter().any(|a| a == "--few"));
        }
        "cuts" => {
            only(args, &["--seed", "--count"], &[]);
            cuts::run(
                number(args, "--seed").unwrap_or(1),
                number(args, "--count").unwrap_or(10_000),
            );
        }
        "one" => match words(args, 1) {
            [line] => match Input::of_line(line) {
                Some(input) => match Checker::always().input(&input) {
                    Ok(()) => println!("no difference"),
                    Err(what) => report(&input, &what),
                },
                None => usage(),
            },
            _ => usage(),
        },
        "sample" | "sample-full" => match words(args, 2) {
            [] => usage(),
            [out, rest @ ..] => {
                let dir = rest.first().map(String::as_str);
                if command == "sample" {
                    sample::run(out, dir);
                } else {
                    sample_full::run(out, dir);
                }
            }
        },
        "bench" => match words(args, 1).first().map(String::as_str) {
            part @ (None | Some("texts" | "rows" | "full")) => bench::run(part),
            Some(_) => usage(),
        },
        _ => usage(),
    }
}
