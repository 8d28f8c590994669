//! A picture of the heap: which stream holds which clusters.

use crate::heap::{fragments, ranges, Heap, Owner, Stream};
use crate::volume::Volume;
use std::fmt::Write;

/// Rows that a picture may have before more clusters share a cell.
const MAX_ROWS: usize = 32;

pub struct Style {
    /// Cells in a row.
    pub width: usize,
    /// Clusters in a cell; without it the least power of two that keeps the
    /// picture within `MAX_ROWS`.
    pub per_cell: Option<usize>,
    pub color: bool,
}

/// What a cluster is. The first four are what `check` complains of or notes.
#[derive(Clone, Copy, Debug, PartialEq, Eq)]
enum Kind {
    Shared,
    Unmarked,
    Lost,
    Bad,
    Bitmap,
    Upcase,
    Root,
    /// Counted among the streams with clusters.
    File(usize),
    Inside,
    Free,
}

const LETTERS: usize = 26;
const PROBLEMS: [Kind; 4] = [Kind::Shared, Kind::Unmarked, Kind::Lost, Kind::Bad];

impl Kind {
    fn of(volume: &Volume, heap: &Heap, places: &[usize], cluster: u32) -> Kind {
        match heap.owners(cluster) {
            [] if volume.bad(cluster) => Kind::Bad,
            [] if volume.marked(cluster) => Kind::Lost,
            [] => Kind::Free,
            [_] if !volume.marked(cluster) => Kind::Unmarked,
            [Owner::Bitmap] => Kind::Bitmap,
            [Owner::Upcase] => Kind::Upcase,
            [Owner::Root] => Kind::Root,
            [Owner::File(index)] => Kind::File(places[*index]),
            [Owner::Inside] => Kind::Inside,
            _ => Kind::Shared,
        }
    }

    /// Files take the letters in slot order, again from A after Z; a capital
    /// begins a fragment.
    fn letter(self, begins: bool) -> char {
        match self {
            Kind::File(place) if begins => char::from(b'A' + (place % LETTERS) as u8),
            Kind::File(place) => char::from(b'a' + (place % LETTERS) as u8),
            Kind::Inside => '+',
            Kind::Bitmap => '%',
            Kind::Upcase => '^',
            Kind::Root => '/',
            Kind::Free => '.',
            Kind::Bad => '!',
            Kind::Lost => '?',
            Kind::Shared => '&',
            Kind::Unmarked => '~',
        }
    }

    fn words(self) -> &'static str {
        match self {
            Kind::File(_) => "file",
            Kind::Inside => "in folders",
            Kind::Bitmap => "allocation bitmap",
            Kind::Upcase => "up-case table",
            Kind::Root => "root directory",
            Kind::Free => "free",
            Kind::Bad => "bad",
            Kind::Lost => "lost: marked, and of no stream",
            Kind::Shared => "of two streams",
            Kind::Unmarked => "of a stream, and not marked",
        }
    }

    /// Parameters of the terminal's colour sequence.
    fn color(self) -> &'static str {
        const FILES: [&str; 8] = ["30;42", "30;43", "30;46", "30;45", "30;44", "30;102", "30;103", "30;106"];
        match self {
            Kind::File(place) => FILES[place % FILES.len()],
            Kind::Bitmap | Kind::Upcase | Kind::Root | Kind::Inside => "30;47",
            Kind::Free => "2",
            _ => "97;41",
        }
    }
}

#[derive(Clone, Copy)]
struct Cell {
    kind: Kind,
    begins: bool,
}

impl Cell {
    /// A cell of several clusters: a problem where there is one; free where
    /// all are free; else what most of the clusters in use are, the first of
    /// equals.
    fn of(clusters: &[Cell]) -> Cell {
        let count = |kind: Kind| clusters.iter().filter(|cell| cell.kind == kind).count();
        let problem = PROBLEMS.into_iter().find(|kind| count(*kind) > 0);
        let used = clusters.iter().map(|cell| cell.kind).filter(|kind| *kind != Kind::Free);
        // Of equals max_by_key takes the last.
        let kind = problem.or(used.rev().max_by_key(|kind| count(*kind))).unwrap_or(Kind::Free);
        let begins = clusters.iter().any(|cell| cell.kind == kind && cell.begins);
        Cell { kind, begins }
    }
}

pub fn draw(volume: &Volume, style: &Style) -> String {
    let g = &volume.geometry;
    let heap = Heap::of(volume);
    let starts: Vec<u32> =
        heap.streams.iter().flat_map(|stream| fragments(&stream.clusters)).map(|part| part.0).collect();
    let places = places(&heap);
    let kinds: Vec<Kind> = g.heap().map(|cluster| Kind::of(volume, &heap, &places, cluster)).collect();
    let mut clusters: Vec<Cell> = kinds.iter().map(|kind| Cell { kind: *kind, begins: false }).collect();
    for start in starts {
        clusters[(start - 2) as usize].begins = true;
    }
    let least = kinds.len().div_ceil(style.width * MAX_ROWS).next_power_of_two();
    let per_cell = style.per_cell.unwrap_or(least);
    let cells: Vec<Cell> = clusters.chunks(per_cell).map(Cell::of).collect();

    let mut text = String::new();
    let each = if per_cell == 1 { "1 cluster".into() } else { format!("{per_cell} clusters") };
    let _ = writeln!(
        text,
        "{} clusters of {} bytes, from cluster 2 on; a cell is {each}",
        g.cluster_count,
        g.cluster_size()
    );
    rows(&cells, style, per_cell, &mut text);
    legend(&heap, &kinds, style, &mut text);
    if let Some(words) = volume.folders() {
        let _ = writeln!(text, "note: {words}; what is in folders is not looked at but for its clusters");
    }
    text
}

/// How many streams with clusters come before each: those without take no
/// letter.
fn places(heap: &Heap) -> Vec<usize> {
    let mut before = 0;
    let place = |stream: &Stream| {
        let place = before;
        before += usize::from(!stream.clusters.is_empty());
        place
    };
    heap.streams.iter().map(place).collect()
}

/// Each row begins with its first cluster; rows that are free like the one
/// before are one *.
fn rows(cells: &[Cell], style: &Style, per_cell: usize, text: &mut String) {
    let mut free_before = false;
    let mut starred = false;
    for (index, row) in cells.chunks(style.width).enumerate() {
        let free = row.iter().all(|cell| cell.kind == Kind::Free);
        if free && free_before {
            if !starred {
                text.push_str("     *\n");
            }
            starred = true;
            continue;
        }
        (free_before, starred) = (free, false);
        let _ = write!(text, "{:6} ", 2 + index * style.width * per_cell);
        for same in row.chunk_by(|one, other| one.kind == other.kind) {
            let letters: String = same.iter().map(|cell| cell.kind.letter(cell.begins)).collect();
            text.push_str(&painted(&letters, same[0].kind, style));
        }
        text.push('\n');
    }
}

fn painted(letters: &str, kind: Kind, style: &Style) -> String {
    if style.color {
        format!("\x1b[{}m{letters}\x1b[0m", kind.color())
    } else {
        letters.into()
    }
}

/// What the letters stand for, of those that the heap has.
fn legend(heap: &Heap, kinds: &[Kind], style: &Style, text: &mut String) {
    let those = |wanted: Kind| -> Vec<u32> {
        let found = kinds.iter().enumerate().filter(|(_, kind)| **kind == wanted);
        found.map(|(index, _)| index as u32 + 2).collect()
    };
    let mut line = |kind: Kind, words: String| {
        let letter = kind.letter(true).to_string();
        let _ = writeln!(text, "     {} {words}", painted(&letter, kind, style));
    };
    for kind in [Kind::Bitmap, Kind::Upcase, Kind::Root] {
        let clusters = those(kind);
        if !clusters.is_empty() {
            line(kind, format!("{}: {}", kind.words(), ranges(&clusters)));
        }
    }
    let drawn: Vec<&Stream> = heap.streams.iter().filter(|stream| !stream.clusters.is_empty()).collect();
    for (place, stream) in drawn.iter().enumerate() {
        let clusters = counted(stream.clusters.len(), "cluster");
        let layout = match fragments(&stream.clusters).len() {
            _ if stream.file.no_fat_chain => format!("{clusters} in a run"),
            parts => format!("{clusters} in a chain of {}", counted(parts, "fragment")),
        };
        let folder = if stream.file.is_directory() { " (folder)" } else { "" };
        line(Kind::File(place), format!("{}{folder}: {layout}", stream.file.name()));
    }
    let inside = those(Kind::Inside);
    if !inside.is_empty() {
        line(Kind::Inside, format!("{}: {}", Kind::Inside.words(), ranges(&inside)));
    }
    for kind in PROBLEMS {
        let clusters = those(kind);
        if !clusters.is_empty() {
            line(kind, format!("{}: {}", kind.words(), ranges(&clusters)));
        }
    }
    line(Kind::Free, format!("free: {}", counted(those(Kind::Free).len(), "cluster")));
    if !drawn.is_empty() {
        text.push_str("A capital letter begins a fragment.\n");
    }
    if drawn.len() > LETTERS {
        let _ =
            writeln!(text, "{} files share {LETTERS} letters: after Z comes A again, in the order above.", drawn.len());
    }
    let empty = heap.streams.len() - drawn.len();
    if empty > 0 {
        let _ = writeln!(text, "Not drawn: {} without clusters.", counted(empty, "file"));
    }
    if heap.unread > 0 {
        let _ = writeln!(
            text,
            "Not read: {} more, since those before hold more clusters than there are.",
            counted(heap.unread, "file")
        );
    }
}

fn counted(count: usize, what: &str) -> String {
    format!("{count} {what}{}", if count == 1 { "" } else { "s" })
}

#[cfg(test)]
mod tests {
    use super::*;

    fn cell(kinds: &[Kind]) -> Kind {
        let cells: Vec<Cell> = kinds.iter().map(|kind| Cell { kind: *kind, begins: false }).collect();
        Cell::of(&cells).kind
    }

    #[test]
    fn what_a_cell_of_several_clusters_shows() {
        use Kind::{Bad, File, Free, Lost};
        assert_eq!(cell(&[Free, Free, Free, Free]), Free);
        assert_eq!(cell(&[Free, Free, Free, File(1)]), File(1));
        assert_eq!(cell(&[File(1), File(0), File(0), Free]), File(0));
        assert_eq!(cell(&[File(1), File(0), Free, Free]), File(1));
        assert_eq!(cell(&[File(1), File(1), File(1), Bad]), Bad);
        assert_eq!(cell(&[Bad, Lost]), Lost);
    }
}
