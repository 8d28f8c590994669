//! Text as it is shown: nothing in it moves the cursor, turns the direction of
//! writing or stays unseen.

/// Shown in place of each such character. A name keeps them: only what is
/// printed is changed.
const SHOWN: &str = "\u{fffd}";

/// What Unicode 15 calls format characters (Cf), line and paragraph
/// separators, and code points to be ignored by default (variation selectors,
/// fillers). Control characters (Cc) come from the standard library.
const UNSEEN: [(u32, u32); 25] = [
    (0x00ad, 0x00ad),
    (0x034f, 0x034f),
    (0x0600, 0x0605),
    (0x061c, 0x061c),
    (0x06dd, 0x06dd),
    (0x070f, 0x070f),
    (0x0890, 0x0891),
    (0x08e2, 0x08e2),
    (0x115f, 0x1160),
    (0x17b4, 0x17b5),
    (0x180b, 0x180f),
    (0x200b, 0x200f),
    (0x2028, 0x202e),
    (0x2060, 0x206f),
    (0x3164, 0x3164),
    (0xfe00, 0xfe0f),
    (0xfeff, 0xfeff),
    (0xffa0, 0xffa0),
    (0xfff0, 0xfffb),
    (0x110bd, 0x110bd),
    (0x110cd, 0x110cd),
    (0x13430, 0x1343f),
    (0x1bca0, 0x1bca3),
    (0x1d173, 0x1d17a),
    (0xe0000, 0xe0fff),
];

fn unseen(letter: char) -> bool {
    let code = u32::from(letter);
    letter.is_control() || UNSEEN.iter().any(|(first, last)| (*first..=*last).contains(&code))
}

/// One line that shows every character of a text, or that there is one.
pub fn plain(text: &str) -> String {
    text.replace(unseen, SHOWN)
}

#[cfg(test)]
mod tests {
    use super::*;

    #[test]
    fn what_cannot_be_seen_is_shown() {
        assert_eq!(
            plain("a\u{202e}b\u{200b}\n\u{7f}\u{9b}\u{2028}\u{fe0f}\u{e0041}"),
            "a\u{fffd}b".to_string() + &SHOWN.repeat(7)
        );
        for text in ["melt-1.csv", "\u{e4}\u{df} \u{5d0}\u{627}", "\u{1f525}", "\u{fffd}", "\u{300}"] {
            assert_eq!(plain(text), text);
        }
    }
}
