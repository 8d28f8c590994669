//! One call made on either side, and what is told of it.

use crate::calls::{Call, Step};
use crate::subject::{Lent, Subject};
use crate::view::Record;
use exfat::Geometry;
use original::{Error, Mount};

/// What an accepted call gives; the parts that it does not have are 0 or
/// empty.
#[derive(Clone, Debug, Default, PartialEq, Eq)]
pub struct Given {
    pub count: u32,
    pub list: Vec<u32>,
    pub record: Option<Record>,
    pub slot: u32,
    pub hint: u32,
}

/// The library's answer. `fault` names a rule of refusals or of the list that
/// it broke.
#[derive(Clone, Debug, PartialEq, Eq)]
pub struct Ours {
    pub number: u32,
    pub given: Given,
    pub fault: Option<&'static str>,
}

/// The original's answer.
#[derive(Clone, Debug, PartialEq, Eq)]
pub enum Theirs {
    Given(Given),
    Refused(Error),
    NotMounted(Error),
}

/// What a list's words hold before a call, to see which of them it wrote.
const LIST_JUNK: u32 = 0xaaaa_aaaa;

fn fault(wrong: bool, text: &'static str) -> Option<&'static str> {
    wrong.then_some(text)
}

pub fn call_subject(
    subject: &dyn Subject,
    volume: &mut [u8],
    map: &[u8],
    geometry: Geometry,
    step: &Step,
) -> Ours {
    let lent = Lent {
        volume,
        map,
        geometry,
    };
    let hint = step.hint;
    match &step.call {
        Call::FreeCount => {
            let (number, count) = subject.free_count(lent);
            let given = Given {
                count,
                hint,
                ..Given::default()
            };
            let fault = fault(number != 0 && count != 0, "a refused free count is not 0");
            Ours {
                number,
                given,
                fault,
            }
        }
        Call::Clusters { record } => call_clusters(subject, lent, *record, hint),
        Call::Allocate { count, near } => {
            let answer = subject.allocate(lent, *count, *near, hint);
            with_record(answer, Record::default(), hint)
        }
        Call::Extend { record, more } => {
            with_record(subject.extend(lent, *record, *more, hint), *record, hint)
        }
        Call::Shrink { record, keep } => {
            with_record(subject.shrink(lent, *record, *keep, hint), *record, hint)
        }
        Call::NewFile(file) => {
            let (number, slot, new_hint) = subject.new_file(lent, file, hint);
            let fault = fault(
                number != 0 && slot != 0,
                "a refused new file's slot is not 0",
            );
            with_hint(
                number,
                new_hint,
                hint,
                Given {
                    slot,
                    ..Given::default()
                },
                fault,
            )
        }
        Call::Write { slot, offset, data } => {
            let at = (*slot, *offset);
            let (number, new_hint) = subject.write(lent, at, &data.bytes(), step.stamp, hint);
            with_hint(number, new_hint, hint, Given::default(), None)
        }
        Call::SetLength { slot, length } => {
            let (number, new_hint) = subject.set_length(lent, (*slot, *length), step.stamp, hint);
            with_hint(number, new_hint, hint, Given::default(), None)
        }
        Call::Remove { slot } => {
            let (number, new_hint) = subject.remove(lent, *slot, hint);
            with_hint(number, new_hint, hint, Given::default(), None)
        }
    }
}

fn call_clusters(subject: &dyn Subject, lent: Lent, record: Record, hint: u32) -> Ours {
    let mut list = vec![LIST_JUNK; record.count as usize + 3];
    let number = subject.clusters(lent, record, &mut list);
    let written = if number == 0 {
        record.count as usize
    } else {
        0
    };
    let rest = list.split_off(written);
    let kept = rest.iter().all(|word| *word == LIST_JUNK);
    let given = Given {
        list,
        hint,
        ..Given::default()
    };
    let fault = fault(!kept, "the rest of the list was written");
    Ours {
        number,
        given,
        fault,
    }
}

fn with_record(answer: (u32, Record, u32), refused: Record, hint: u32) -> Ours {
    let (number, record, new_hint) = answer;
    let fault = fault(number != 0 && record != refused, "a refused call's record");
    let record = Some(record);
    with_hint(
        number,
        new_hint,
        hint,
        Given {
            record,
            ..Given::default()
        },
        fault,
    )
}

fn with_hint(
    number: u32,
    new_hint: u32,
    hint: u32,
    given: Given,
    before: Option<&'static str>,
) -> Ours {
    let moved = fault(number != 0 && new_hint != hint, "a refused call's hint");
    Ours {
        number,
        given: Given {
            hint: new_hint,
            ..given
        },
        fault: before.or(moved),
    }
}

fn tuple(record: Record) -> original::Record {
    (record.first, record.last, record.count, record.no_fat_chain)
}

fn record(tuple: original::Record) -> Record {
    Record {
        first: tuple.0,
        last: tuple.1,
        count: tuple.2,
        no_fat_chain: tuple.3,
    }
}

fn given_record(tuple: original::Record) -> Given {
    Given {
        record: Some(record(tuple)),
        ..Given::default()
    }
}

/// Makes the call on a mount whose hint is set.
pub fn call_original(mount: &mut Mount, step: &Step) -> Theirs {
    original::set_clock(step.clock);
    let none = |()| Given::default();
    let result = match &step.call {
        Call::FreeCount => Ok(Given {
            count: mount.free_count() as u32,
            ..Given::default()
        }),
        Call::Clusters { record } => mount.clusters(tuple(*record)).map(|list| Given {
            list,
            ..Given::default()
        }),
        Call::Allocate { count, near } => mount.allocate(*count, *near).map(given_record),
        Call::Extend { record, more } => mount.extend(tuple(*record), *more).map(given_record),
        Call::Shrink { record, keep } => mount.shrink(tuple(*record), *keep).map(given_record),
        Call::NewFile(file) => mount
            .new_file(&file.name, file.attributes, file.stamps)
            .map(|slot| Given {
                slot,
                ..Given::default()
            }),
        Call::Write { slot, offset, data } => mount.write(*slot, *offset, &data.bytes()).map(none),
        Call::SetLength { slot, length } => mount.set_length(*slot, *length).map(none),
        Call::Remove { slot } => mount.remove(*slot).map(none),
    };
    match result {
        Ok(given) => Theirs::Given(Given {
            hint: mount.hint(),
            ..given
        }),
        Err(error) => Theirs::Refused(error),
    }
}

/// Which of 01's numbers an error of the original stands for.
#[derive(Clone, Copy, Debug, PartialEq, Eq)]
pub enum Numbers {
    One(u32),
    /// The error does not tell which of these.
    Either(u32, u32),
    /// No call should meet it.
    Unknown,
}

impl Numbers {
    pub fn allow(&self, number: u32) -> bool {
        match self {
            Numbers::One(one) => number == *one,
            Numbers::Either(one, other) => number == *one || number == *other,
            Numbers::Unknown => false,
        }
    }
}

/// For a call on a mounted volume.
pub fn numbers(error: &Error) -> Numbers {
    let number = match error {
        Error::NoSpace => 7,
        Error::Bounds => 8,
        Error::NotFound => 10,
        Error::IsDirectory => 11,
        Error::Invalid(text) => match *text {
            "cluster outside heap" | "bitmap cluster outside heap" => 2,
            "free or bad cluster in FAT chain" => 3,
            "FAT chain cycle" => 4,
            "allocation differs from its FAT chain"
            | "stream chain length differs from allocation" => 5,
            "allocation holds a free cluster" => 6,
            "system cluster in a stream allocation" => 9,
            "file name length" | "file name character" | "reserved file name" => 12,
            "attributes other than ReadOnly, Hidden, System and Archive" => 13,
            _ => return Numbers::Unknown,
        },
        _ => return Numbers::Unknown,
    };
    Numbers::One(number)
}

/// For a mount that failed because the root is damaged: its first cluster in
/// the boot sector, or its chain.
pub fn root_numbers(error: &Error) -> Numbers {
    match error {
        Error::Invalid("main or backup boot region failed validation") => Numbers::One(2),
        Error::Invalid("free or bad cluster in FAT chain")
        | Error::Invalid("reserved or out-of-range FAT entry") => Numbers::One(3),
        Error::Invalid("FAT chain cycle") => Numbers::One(4),
        Error::Invalid("system stream unallocated or cross-linked") => Numbers::Either(6, 9),
        // The clusters of a bitmap, read as part of the root.
        _ => Numbers::One(9),
    }
}
