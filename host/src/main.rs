//! Our code against the published source: `compare` the answers, `bench` the speed, or write the fixed list of their `answers` and of `histories`.
mod answers;
mod bench;
mod blocks;
mod book_bench;
mod book_sys;
mod case;
mod compare;
mod cut_inputs;
mod errors;
mod fault;
mod flags;
mod forms;
mod free_inputs;
mod huge;
mod inputs;
mod judge;
mod lent;
mod lockstep;
mod padded_inputs;
mod page_bench;
mod page_inputs;
mod page_stream_inputs;
mod pages;
mod rng;
mod run_bench;
mod second_book;
mod stream_inputs;
mod table;

use flags::Flags;
use std::process::ExitCode;

const USAGE: &str = "usage: host compare [--seconds N] [--seed N] [--only NAME] [--long]
       host bench [--only PHRASE]
       host answers FOLDER
       host histories PROGRAM";
/// How long a comparison goes on, where nothing else is said.
const SECONDS: u64 = 160;

/// A seed from the clock.
fn clock() -> u64 {
    std::time::SystemTime::now().duration_since(std::time::UNIX_EPOCH).map_or(1, |d| d.as_nanos() as u64 >> 10)
}

/// Compares as flags say; whether nothing differs that isn't listed.
fn compare(words: &[String]) -> Result<bool, String> {
    let flags = Flags::of(words, &["--seconds", "--seed", "--only"], &["--long"])?;
    let names: Vec<&str> = compare::parts().iter().map(|p| p.name).collect();
    let only = flags.text("--only").map(String::from);
    if only.as_deref().is_some_and(|n| !names.contains(&n)) {
        return Err(format!("there is no {} to compare; there are {}", only.unwrap(), names.join(", ")));
    }
    let (mut known, mut listed) = (judge::names(), judge::listed());
    known.sort();
    known.dedup();
    listed.sort();
    if known != listed {
        return Err(format!("docs/DIFFERENCES.md lists {listed:?}, and the comparison knows {known:?}"));
    }
    let seed = flags.number("--seed")?.unwrap_or_else(clock);
    Ok(compare::compare(&compare::Run { seed, seconds: flags.number("--seconds")?.unwrap_or(SECONDS), long: flags.is_set("--long"), only }))
}

/// The only word of some, which is a folder.
fn only(words: &[String]) -> Result<&str, String> {
    match words {
        [folder] => Ok(folder),
        _ => Err("a folder is wanted, and nothing else".into()),
    }
}

/// Runs a command, and tells whether it succeeded.
fn run(words: &[String]) -> Result<bool, String> {
    match words.split_first() {
        Some((command, rest)) if command == "compare" => compare(rest),
        Some((command, rest)) if command == "bench" => {
            bench::bench(Flags::of(rest, &["--only"], &[])?.text("--only"));
            Ok(true)
        }
        Some((command, rest)) if command == "answers" => {
            answers::answers(only(rest)?);
            Ok(true)
        }
        Some((command, rest)) if command == "histories" => {
            answers::histories(only(rest)?);
            Ok(true)
        }
        _ => Err("there are the commands compare, bench, answers and histories".into()),
    }
}

fn main() -> ExitCode {
    let words: Vec<String> = std::env::args().skip(1).collect();
    match run(&words) {
        Ok(true) => ExitCode::SUCCESS,
        Ok(false) => ExitCode::FAILURE,
        Err(why) => {
            eprintln!("{why}\n{USAGE}");
            ExitCode::FAILURE
        }
    }
}

#[cfg(test)]
mod tests {
    /// The committed header and declarations are those that the exports give.
    #[test]
    fn bindings_are_current() {
        let script = concat!(env!("CARGO_MANIFEST_DIR"), "/bindings.py");
        let status = std::process::Command::new("python3").args([script, "--check"]).status().unwrap();
        assert!(status.success(), "run python3 host/bindings.py");
    }

    /// The headers are C and C++: the one includes the other.
    #[test]
    fn header_compiles() {
        let header = concat!(env!("CARGO_MANIFEST_DIR"), "/../include/ouriscado_codec.h");
        for (language, standard) in [("c", "-std=c99"), ("c++", "-std=c++11")] {
            let words = [standard, "-Wall", "-Wextra", "-Werror", "-pedantic", "-fsyntax-only", "-x", language, header];
            let status = std::process::Command::new("cc").args(words).status().unwrap();
            assert!(status.success(), "{language}");
        }
    }
}
