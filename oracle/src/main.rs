//! The oracle's commands.

use std::process::ExitCode;

use oracle::Lent;

mod bench;
mod mutants;
mod program;
mod stated;

const USAGE: &str = "\
oracle play DIR [--log N] [--values N] [--units N] [--delays N] [--any-size]
oracle bench DIR
oracle circuits [NAME DIR]
oracle generate FAMILY SEED DIR
oracle vectors DIR [FIRST LAST]
oracle pack FILE
oracle pack runs FILE
oracle pack classes FILE
oracle pack reports FILE
oracle pack sizes FILE
oracle mutants [NAME..]";

fn main() -> ExitCode {
    let words: Vec<String> = std::env::args().skip(1).collect();
    let words: Vec<&str> = words.iter().map(String::as_str).collect();
    match run(&words) {
        Some(()) => ExitCode::SUCCESS,
        None => {
            eprintln!("{USAGE}");
            ExitCode::FAILURE
        }
    }
}

fn run(words: &[&str]) -> Option<()> {
    match words {
        ["play", dir, options @ ..] => {
            let (lent, any_size) = options_of(options)?;
            print!("{}", program::play(dir.as_ref(), &lent, any_size));
        }
        ["bench", dir] => println!("{}", bench::bench(dir.as_ref())),
        ["circuits"] => print!("{}", oracle::circuits::document()),
        ["circuits", name, dir] => println!("{}", stated::write_stated(name, dir.as_ref())?),
        ["generate", family, seed, dir] => {
            println!("{}", stated::write(&stated::generated(family, seed)?, dir.as_ref())?);
        }
        ["vectors", dir] => oracle::vectors::write(dir.as_ref()).ok()?,
        ["vectors", dir, first, last] => {
            oracle::vectors::write_random(dir.as_ref(), first.parse().ok()?, last.parse().ok()?).ok()?;
        }
        ["pack", what @ ..] => pack(what)?,
        ["mutants", names @ ..] => mutants::try_mutants(names),
        _ => return None,
    }
    Some(())
}

/// Writes a file of a program, and prints what the program has to print.
fn pack(words: &[&str]) -> Option<()> {
    match words {
        [file] => {
            std::fs::write(file, oracle::pack::pack()).ok()?;
            print!("{}", oracle::pack::printed());
        }
        ["runs", file] => {
            let runs = oracle::runs::runs();
            std::fs::write(file, oracle::runs::pack(&runs)).ok()?;
            print!("{}", oracle::runs::printed(&runs));
            eprintln!("left out: {}", runs.left_out.join(", "));
        }
        ["classes", file] => {
            let classes = oracle::classes::classes();
            std::fs::write(file, oracle::classes::pack(&classes)).ok()?;
            print!("{}", oracle::classes::printed(&classes));
            eprintln!("left out: {}", classes.left_out.join(", "));
        }
        ["reports", file] => {
            let reports = oracle::reports::reports();
            std::fs::write(file, oracle::reports::pack(&reports)).ok()?;
            print!("{}", oracle::reports::printed(&reports));
            eprintln!("left out: {}", reports.left_out.join(", "));
        }
        ["sizes", file] => {
            let sizes = oracle::sizes::sizes();
            std::fs::write(file, oracle::sizes::pack(&sizes)).ok()?;
            print!("{}", oracle::sizes::printed(&sizes));
            eprintln!("left out: {}", sizes.left_out.join(", "));
        }
        _ => return None,
    }
    Some(())
}

/// The sizes lent, and whether files of any size are taken.
fn options_of(mut options: &[&str]) -> Option<(Lent, bool)> {
    let mut lent = Lent::default();
    let mut any_size = false;
    while let [name, rest @ ..] = options {
        options = rest;
        if *name == "--any-size" {
            any_size = true;
            continue;
        }
        let place = match *name {
            "--log" => &mut lent.log,
            "--values" => &mut lent.values,
            "--units" => &mut lent.units,
            "--delays" => &mut lent.delays,
            _ => return None,
        };
        let [number, rest @ ..] = options else { return None };
        *place = number.parse().ok()?;
        options = rest;
    }
    Some((lent, any_size))
}
