//! `bittsalak`: exFAT image files through the proved library.

mod args;
mod boot;
mod calls;
mod changes;
mod check;
mod commands;
mod directory;
mod failure;
mod files;
mod format;
mod heap;
mod library;
mod limits;
mod map;
mod replay;
mod stamp;
mod text;
mod upcase;
mod views;
mod volume;

use args::Args;
use commands::{Command, COMMANDS};
use failure::{usage, Outcome};
use std::io::Write;
use std::process::ExitCode;

const ABOUT: &str = "bittsalak works on an exFAT image file through the proved library.";

const COMMON: &str = "FILE is a name in the root directory, in any case of its letters, or @SLOT. Folders are not followed yet.
Commands that change a volume take --time 2026-11-16T12:30:05Z (now unless given; zones -16:00 to +15:45 in place of Z) and
--hint CLUSTER (where a search for clusters starts: 2 unless given; in a list each call hands its hint to the next).
They write only the changed blocks of 512 bytes back, after the call has succeeded; a refused one leaves the image as it was.
An option's value is the word behind it, whatever it looks like, or stands behind =; what follows -- is no option.

Exit status: 0 success; 1 refused by the library, or not consistent; 2 wrong usage, name, list or data file;
3 an image or an output that cannot be read or written, or an image that is no volume within the limits.";

fn main() -> ExitCode {
    let mut out = Vec::new();
    let result = run(&mut out);
    // Output that is lost outweighs what the command came to.
    match files::show([&out[..]]).and(result) {
        Ok(()) => ExitCode::SUCCESS,
        Err(failure) => {
            // The status tells it too, where nobody can be told in words.
            let _ = writeln!(std::io::stderr(), "bittsalak: {failure}");
            ExitCode::from(failure.status())
        }
    }
}

fn run(out: &mut Vec<u8>) -> Outcome<()> {
    let mut words = Vec::new();
    for word in std::env::args_os().skip(1) {
        match word.into_string() {
            Ok(word) => words.push(word),
            Err(word) => return usage(format!("{} is not UTF-8", word.to_string_lossy())),
        }
    }
    if words.is_empty() {
        return usage("a command is missing; --help lists them");
    }
    let name = words.remove(0);
    match name.as_str() {
        "--help" | "-h" | "help" => {
            help(out);
            return Ok(());
        }
        "--version" => {
            out.extend(format!("bittsalak {}\n", env!("CARGO_PKG_VERSION")).bytes());
            return Ok(());
        }
        _ => {}
    }
    let Some(command) = COMMANDS.iter().find(|command| command.name == name) else {
        return usage(format!("unknown command {name}; --help lists them"));
    };
    let mut args = Args::new(words)?;
    if args.flag("--help") || args.flag("-h") {
        help_of(command, out);
        return Ok(());
    }
    (command.run)(args, out)
}

fn help(out: &mut Vec<u8>) {
    let mut text = format!("{ABOUT}\n\n");
    for command in &COMMANDS {
        text += &format!("  bittsalak {} {}\n      {}\n", command.name, command.words, command.does);
    }
    text += &format!("\nbittsalak COMMAND --help tells more; bittsalak --version the version.\n\n{COMMON}\n");
    out.extend(text.bytes());
}

fn help_of(command: &Command, out: &mut Vec<u8>) {
    let Command { name, words, does, help, .. } = command;
    out.extend(format!("bittsalak {name} {words}: {does}\n\n{help}\n\n{COMMON}\n").bytes());
}
