//! A list of calls as text, one call a line.

use crate::args::number;
use crate::calls::{self, Call, Place, Target};
use crate::check::check;
use crate::failure::{usage, Failure, Outcome};
use crate::files;
use crate::library::{Number, Stamp};
use crate::text::plain;
use crate::volume::Volume;
use std::fmt::Write;

/// What a line of a list asks for.
enum Step {
    Call(Call),
    /// Where the next search for clusters starts.
    Hint(u32),
}

pub struct List(Vec<(usize, Step)>);

pub struct Options {
    /// End at the first call that is not carried out.
    pub stop: bool,
    /// Look after each call whether the volume is consistent.
    pub check: bool,
    pub stamp: Stamp,
    pub hint: u32,
}

/// What a list came to: the lines to show, the timings, and how many calls
/// were not carried out.
pub struct Replayed {
    pub lines: String,
    pub csv: String,
    pub made: usize,
    pub refused: usize,
    pub inconsistent: Option<String>,
}

impl List {
    pub fn parse(text: &str) -> Outcome<List> {
        let mut steps = Vec::new();
        for (index, line) in text.lines().enumerate() {
            let line = line.trim_start();
            if line.is_empty() || line.starts_with('#') {
                continue;
            }
            let told = |failure: Failure| Failure::Usage(format!("line {}: {failure}", index + 1));
            steps.push((index + 1, step(line).map_err(told)?));
        }
        Ok(List(steps))
    }

    pub fn run(&self, volume: &mut Volume, options: &Options) -> Replayed {
        let mut done = Replayed {
            lines: String::new(),
            csv: "line,call,number,nanoseconds\n".into(),
            made: 0,
            refused: 0,
            inconsistent: None,
        };
        let mut hint = options.hint;
        for (line, step) in &self.0 {
            let call = match step {
                Step::Call(call) => call,
                Step::Hint(cluster) => {
                    hint = *cluster;
                    continue;
                }
            };
            done.made += 1;
            let before = hint;
            let carried_out = done.tell(*line, call, calls::run(volume, call, &options.stamp, &mut hint));
            if !carried_out {
                hint = before;
                if options.stop {
                    break;
                }
            }
            if options.check {
                if let Some(reason) = check(volume).reasons.first() {
                    done.inconsistent = Some(format!("line {line}: not consistent: {reason}"));
                    break;
                }
            }
        }
        done
    }
}

impl Replayed {
    fn tell(&mut self, line: usize, call: &Call, result: Result<calls::Answer, String>) -> bool {
        let (shown, number, nanoseconds) = match &result {
            Ok(answer) => (answer.to_string(), answer.number.0.to_string(), answer.took.as_nanos()),
            Err(words) => (format!("- not called: {words}"), String::new(), 0),
        };
        let carried_out = matches!(&result, Ok(answer) if answer.number == Number::DONE);
        self.refused += usize::from(!carried_out);
        let _ = writeln!(self.lines, "{}", plain(&format!("{line:5}  {call}: {shown}")));
        let _ = writeln!(self.csv, "{line},{},{number},{nanoseconds}", call.verb());
        carried_out
    }
}

fn step(line: &str) -> Outcome<Step> {
    let (verb, rest) = word(line)?;
    let call = match verb.as_str() {
        "hint" => {
            let (cluster, rest) = word(rest)?;
            nothing_left(rest)?;
            return Ok(Step::Hint(number(&cluster, "CLUSTER")?));
        }
        "new" => {
            let (name, rest) = word(rest)?;
            let (attributes, rest) = optional(rest, "0x20")?;
            nothing_left(rest)?;
            Call::New { name, attributes: number(&attributes, "ATTRIBUTES")? }
        }
        "write" => {
            let (target, rest) = word(rest)?;
            let (offset, rest) = word(rest)?;
            let place = match offset.as_str() {
                "end" => Place::End,
                offset => Place::At(number(offset, "OFFSET")?),
            };
            Call::Write { target: Target::parse(&target), place, data: source(rest)? }
        }
        "truncate" => {
            let (target, rest) = word(rest)?;
            let (length, rest) = word(rest)?;
            nothing_left(rest)?;
            Call::Truncate { target: Target::parse(&target), length: number(&length, "LENGTH")? }
        }
        "rm" => {
            let (target, rest) = word(rest)?;
            nothing_left(rest)?;
            Call::Remove { target: Target::parse(&target) }
        }
        "free" => {
            nothing_left(rest)?;
            Call::Free
        }
        _ => return usage(format!("unknown call {verb}")),
    };
    Ok(Step::Call(call))
}

fn optional<'line>(rest: &'line str, default: &str) -> Outcome<(String, &'line str)> {
    if rest.trim().is_empty() {
        return Ok((default.into(), ""));
    }
    word(rest)
}

/// The first word of a line, which may stand in double quotes, and the rest.
fn word(line: &str) -> Outcome<(String, &str)> {
    let line = line.trim_start();
    if let Some(quoted) = line.strip_prefix('"') {
        let Some((word, rest)) = quoted.split_once('"') else {
            return usage("a quote is not closed");
        };
        return Ok((word.into(), rest));
    }
    let end = line.find(char::is_whitespace).unwrap_or(line.len());
    if end == 0 {
        return usage("a word is missing");
    }
    Ok((line[..end].into(), &line[end..]))
}

fn nothing_left(rest: &str) -> Outcome<()> {
    if rest.trim().is_empty() {
        return Ok(());
    }
    usage(format!("{} is too much", rest.trim()))
}

/// The data that a source stands for.
fn source(text: &str) -> Outcome<Vec<u8>> {
    let Some((kind, rest)) = text.trim_start().split_once(':') else {
        return usage("a source is hex:, text:, file:, fill: or random:");
    };
    match kind {
        "text" => unescaped(rest),
        "hex" => hex(rest.trim_end()),
        "file" => {
            let data = files::read(rest.trim_end(), MOST)?;
            if data.len() > MOST {
                return usage(format!("{}: more than {MOST} bytes", rest.trim_end()));
            }
            Ok(data)
        }
        "fill" => {
            let (byte, count) = times(rest)?;
            Ok(vec![number::<u8>(byte, "BYTE")?; count])
        }
        "random" => {
            let (seed, count) = times(rest)?;
            Ok(random(number(seed, "SEED")?, count))
        }
        _ => usage(format!("unknown source {kind}:")),
    }
}

/// More bytes than any volume holds would only fill the memory.
pub const MOST: usize = 1 << 26;

fn times(text: &str) -> Outcome<(&str, usize)> {
    let Some((what, count)) = text.trim_end().split_once('*') else {
        return usage("a count after * is missing");
    };
    let count: usize = number(count, "COUNT")?;
    if count > MOST {
        return usage(format!("COUNT: {count} is above {MOST}"));
    }
    Ok((what, count))
}

fn hex(text: &str) -> Outcome<Vec<u8>> {
    let digits: Vec<u32> = text
        .chars()
        .map(|digit| digit.to_digit(16))
        .collect::<Option<_>>()
        .filter(|digits: &Vec<u32>| digits.len() % 2 == 0)
        .ok_or_else(|| Failure::Usage("hex: takes pairs of hex digits".into()))?;
    Ok(digits.chunks_exact(2).map(|pair| (pair[0] * 16 + pair[1]) as u8).collect())
}

/// Text with \n, \r, \t and \\.
fn unescaped(text: &str) -> Outcome<Vec<u8>> {
    let mut plain = String::new();
    let mut letters = text.chars();
    while let Some(letter) = letters.next() {
        plain.push(match letter {
            '\\' => match letters.next() {
                Some('n') => '\n',
                Some('r') => '\r',
                Some('t') => '\t',
                Some('\\') => '\\',
                _ => return usage(r"text: knows \n, \r, \t and \\"),
            },
            letter => letter,
        });
    }
    Ok(plain.into_bytes())
}

/// The low bytes of splitmix64's numbers, the eight of each low byte first.
fn random(seed: u64, count: usize) -> Vec<u8> {
    let mut state = seed;
    let mut bytes = Vec::with_capacity(count + 8);
    while bytes.len() < count {
        state = state.wrapping_add(0x9e37_79b9_7f4a_7c15);
        let mut word = state;
        word = (word ^ (word >> 30)).wrapping_mul(0xbf58_476d_1ce4_e5b9);
        word = (word ^ (word >> 27)).wrapping_mul(0x94d0_49bb_1331_11eb);
        bytes.extend((word ^ (word >> 31)).to_le_bytes());
    }
    bytes.truncate(count);
    bytes
}

#[cfg(test)]
mod tests {
    use super::*;

    fn data(text: &str) -> Option<Vec<u8>> {
        source(text).ok()
    }

    #[test]
    fn sources() {
        assert_eq!(data("hex:00fF"), Some(vec![0, 255]));
        assert_eq!(data("hex:"), Some(vec![]));
        assert_eq!(data(r"text:a b\n"), Some(b"a b\n".to_vec()));
        assert_eq!(data("fill:0x41*3"), Some(b"AAA".to_vec()));
        // splitmix64's first number from seed 0 is 0xe220a8397b1dcdaf.
        assert_eq!(data("random:0*3"), Some(vec![0xaf, 0xcd, 0x1d]));
        for text in ["", "hex:0", "hex:0g", "fill:256*1", "fill:1", "random:1*x", r"text:\q", "zeros:3", "fill:0*1000M"]
        {
            assert_eq!(data(text), None, "{text}");
        }
    }

    #[test]
    fn lines() {
        let list = List::parse("# a comment\n\nnew \"a b\" 0x21\nhint 7\n write @3 end text:x # y\n").ok();
        let steps = list.expect("a good list").0;
        let call = |index: usize| match &steps[index] {
            (line, Step::Call(call)) => (*line, call.clone()),
            (line, Step::Hint(_)) => (*line, Call::Free),
        };
        assert_eq!(call(0), (3, Call::New { name: "a b".into(), attributes: 0x21 }));
        assert_eq!(call(1).0, 4);
        let write = Call::Write { target: Target::Slot(3), place: Place::End, data: b"x # y".to_vec() };
        assert_eq!(call(2), (5, write));
        for text in ["rm", "rm a b", "new \"a", "write a 0", "truncate a -1", "mv a b", "free 1", "hint x"] {
            assert!(List::parse(text).is_err(), "{text}");
        }
    }
}
