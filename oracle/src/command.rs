//! The command line.

use crate::calls::Kinds;
use crate::cases;
use crate::compare::{kinds_word, mode_word, Mode, Options, Run, Tally};
use crate::sample;
use crate::subject::Library;
use std::process::ExitCode;

const USAGE: &str = "\
oracle [--calls N] [--seed S] [--kinds alloc|files|all] [--mode fresh|list] [--only VOLUME]
oracle --differences
oracle --sample FILE
oracle --replay FILE";

/// Exit statuses beside 0: a difference, a wrong command line or a fault of
/// the set-up (3: no Rust sources).
const DIFFERENT: u8 = 1;
const WRONG: u8 = 2;

enum Command {
    Compare(Options),
    Differences,
    Sample(String),
    Replay(String),
}

fn number(word: &str) -> Result<u64, String> {
    word.parse().map_err(|_| format!("not a number: {word}"))
}

fn parse(words: &[String]) -> Result<Command, String> {
    let mut options = Options {
        calls: 20_000,
        seed: 1,
        kinds: Kinds::All,
        mode: Mode::Fresh,
        only: None,
    };
    if words == ["--differences"] {
        return Ok(Command::Differences);
    }
    for pair in words.chunks(2) {
        let [name, value] = pair else {
            return Err(format!("{} needs a value", pair[0]));
        };
        match (name.as_str(), value.as_str()) {
            ("--calls", value) => options.calls = number(value)?,
            ("--seed", value) => options.seed = number(value)?,
            ("--only", value) => options.only = Some(number(value)?),
            ("--kinds", "alloc") => options.kinds = Kinds::Alloc,
            ("--kinds", "files") => options.kinds = Kinds::Files,
            ("--kinds", "all") => options.kinds = Kinds::All,
            ("--mode", "fresh") => options.mode = Mode::Fresh,
            ("--mode", "list") => options.mode = Mode::List,
            ("--sample", file) => return Ok(Command::Sample(file.to_string())),
            ("--replay", file) => return Ok(Command::Replay(file.to_string())),
            _ => return Err(format!("unknown: {name} {value}")),
        }
    }
    Ok(Command::Compare(options))
}

fn compare(options: Options) -> ExitCode {
    println!(
        "seed {}, kinds {}, mode {}",
        options.seed,
        kinds_word(options.kinds),
        mode_word(options.mode)
    );
    let mut run = Run {
        subject: &Library,
        options,
        tally: Tally::default(),
    };
    run.run();
    run.tally.print();
    if run.tally.unexplained == 0 {
        ExitCode::SUCCESS
    } else {
        ExitCode::from(DIFFERENT)
    }
}

/// Every known difference on its smallest input.
fn differences() -> ExitCode {
    match cases::print(&Library) {
        0 => ExitCode::SUCCESS,
        wrong => {
            println!("{wrong} cases are not as told");
            ExitCode::from(DIFFERENT)
        }
    }
}

fn replay(file: &str) -> ExitCode {
    match sample::replay(&Library, file) {
        Ok((calls, 0)) => {
            println!("{calls} calls agree");
            ExitCode::SUCCESS
        }
        Ok((calls, wrong)) => {
            println!("{wrong} of {calls} calls differ");
            ExitCode::from(DIFFERENT)
        }
        Err(error) => fault(&format!("{file}: {error}")),
    }
}

fn fault(text: &str) -> ExitCode {
    eprintln!("{text}");
    ExitCode::from(WRONG)
}

pub fn main() -> ExitCode {
    if !original::clock_is_ours() {
        return fault("the original reads the system's clock, so stamps cannot be compared");
    }
    let words: Vec<String> = std::env::args().skip(1).collect();
    match parse(&words) {
        Err(error) => fault(&format!("{error}\n{USAGE}")),
        Ok(Command::Compare(options)) => compare(options),
        Ok(Command::Differences) => differences(),
        Ok(Command::Replay(file)) => replay(&file),
        Ok(Command::Sample(file)) => match sample::write(&file) {
            Ok(text) => {
                println!("{text}");
                ExitCode::SUCCESS
            }
            Err(error) => fault(&format!("{file}: {error}")),
        },
    }
}
