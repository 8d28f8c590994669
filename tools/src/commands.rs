//! The table of the commands, with their help.

use crate::args::Args;
use crate::changes;
use crate::failure::Outcome;
use crate::views;

/// A command: its name, its words and what they do, and the function.
pub struct Command {
    pub name: &'static str,
    pub words: &'static str,
    pub does: &'static str,
    pub help: &'static str,
    pub run: fn(Args, &mut Vec<u8>) -> Outcome<()>,
}

pub const COMMANDS: [Command; 11] = [
    Command {
        name: "format",
        words: "IMAGE [--size BYTES] [--sector BYTES] [--cluster BYTES] [--fats 1|2] [--label TEXT] [--force]",
        does: "make an image with an empty volume",
        help: "Sizes take K and M: --size 16M (default; 1M to 16M), --sector 512 (512 to 4096), --cluster 4096 (the sector
to 32K), --fats 1, --label BITTSALAK (at most 11 units; '' for none). An image that is there already is replaced only
with --force. The new file is written beside it and renamed. The volume's serial number is the time, now or --time.",
        run: changes::format,
    },
    Command {
        name: "ls",
        words: "IMAGE [--long]",
        does: "list the root's files",
        help: "Columns: slot, length, valid length, clusters, run or chain with its fragments, attributes (Read-only, Hidden,
System, Directory, Archive), time of the last change, name. --long adds the other times and the clusters.
The clusters are listed by the library; where it refuses, its number stands there and the status is 1.
What is in folders is not listed; a note tells that there are folders.",
        run: views::ls,
    },
    Command {
        name: "new",
        words: "IMAGE NAME [--attributes N]",
        does: "make an empty file",
        help: "A name that the root has already, in any case of its letters, is refused (status 2). Attributes: 0x20 (Archive)
unless given; the library takes 0x01, 0x02, 0x04, 0x20 and their sums.",
        run: changes::new,
    },
    Command {
        name: "write",
        words: "IMAGE FILE [DATA|-] [--at OFFSET|--append]",
        does: "write data into a file",
        help: "DATA is a file, or - (default) for the standard input. OFFSET is 0 unless given; --append is the file's length.
Of data that is longer than the volume no more than one byte beyond its length is read: it never fits (7). The image itself
may be DATA, and never fits either.",
        run: changes::write,
    },
    Command {
        name: "truncate",
        words: "IMAGE FILE LENGTH",
        does: "make a file shorter or longer",
        help: "What is read past the old end is zero.",
        run: changes::truncate,
    },
    Command {
        name: "rm",
        words: "IMAGE FILE",
        does: "remove a file",
        help: "Its entries are marked unused and its clusters freed.",
        run: changes::rm,
    },
    Command {
        name: "cat",
        words: "IMAGE FILE [TO] [--force]",
        does: "show a file's contents",
        help: "To the standard output, or into the file TO. A file that is there already is replaced only with --force, and the
image never. The library reads it, part by part from where it lies; bytes from the valid length on are zeros.",
        run: views::cat,
    },
    Command {
        name: "free",
        words: "IMAGE",
        does: "tell how much is free",
        help: "The library's free count. Bad clusters that are not marked count as free and cannot be used.",
        run: views::free,
    },
    Command {
        name: "check",
        words: "IMAGE",
        does: "tell whether the volume is consistent",
        help: "Each reason against it names its slot and clusters, with the library's number; the status is then 1. A note is
no reason: lost clusters, bad ones, FATs or bitmaps that differ, wrong hashes, repeated names, and folders, whose
contents are not checked (01 speaks of the root alone) but followed to know their clusters from lost ones.",
        run: views::check,
    },
    Command {
        name: "map",
        words: "IMAGE [--width CELLS] [--per-cell CLUSTERS] [--color always|never|auto]",
        does: "draw the heap",
        help: "CELLS in a row: COLUMNS less the margin, or 64, unless given. A cell is one cluster, or the least power of two of them
that gives at most 32 rows. A cell of several shows a problem where there is one, is free where all are free, and is
else what most of its clusters in use are. Each row begins with its first cluster; * stands for more free rows.
Files and folders of the root have letters in slot order, again from A after Z; those without clusters have none. + is
what is in folders.
Colours: where the standard output is a terminal, NO_COLOR is not set and TERM is not dumb, or as --color says.",
        run: views::map,
    },
    Command {
        name: "replay",
        words: "IMAGE LIST [--stop] [--check] [--csv TIMINGS] [--force] [--quiet]",
        does: "carry out a list of calls",
        help: "LIST is a file, or -. One call a line:
  new NAME [ATTRIBUTES]
  write FILE OFFSET|end SOURCE
  truncate FILE LENGTH
  rm FILE
  free
  hint CLUSTER                 where the next search for clusters starts
SOURCE is hex:DIGITS, text:TO THE END OF THE LINE (with \\n \\r \\t \\\\), file:PATH, fill:BYTE*COUNT or random:SEED*COUNT.
A line that starts with # is a comment; a name with spaces stands in double quotes. A bad list is refused whole.
A refused call is shown with its number and the list goes on, or ends there with --stop; what the others changed
is written back at the end, and the status is 1. --check ends the list, and changes nothing, where the volume is not
consistent after a call. --quiet shows the summary alone. TIMINGS gets line,call,number,nanoseconds of the library's calls;
a file that is there already is replaced only with --force, and the image never.",
        run: changes::replay,
    },
];
