//! The kinds of bytes. Document 01: "Every one of the 256 byte values has one kind: module
//! letter, event letter, each mark, line end, or none."

/// The kind of a byte in a program.
#[derive(Clone, Copy, Debug, PartialEq, Eq)]
pub enum Kind {
    /// A module letter, a to z.
    Module(u8),
    /// An event letter, A to Z.
    Event(u8),
    /// The mark `1`.
    One,
    /// The mark `[`.
    BracketOpen,
    /// The mark `]`.
    BracketClose,
    /// The mark `{`.
    BraceOpen,
    /// The mark `}`.
    BraceClose,
    /// The mark `*`.
    Star,
    /// The mark `/`.
    Slash,
    /// The mark `:`.
    Colon,
    /// One bar: `|`, or half of `||`.
    Bar,
    /// The mark `.`.
    Dot,
    /// Byte 10.
    LineEnd,
    /// Every other byte, the space too.
    None,
}

/// The one kind of each byte value.
pub fn kind(byte: u8) -> Kind {
    match byte {
        b'a'..=b'z' => Kind::Module(byte),
        b'A'..=b'Z' => Kind::Event(byte),
        b'1' => Kind::One,
        b'[' => Kind::BracketOpen,
        b']' => Kind::BracketClose,
        b'{' => Kind::BraceOpen,
        b'}' => Kind::BraceClose,
        b'*' => Kind::Star,
        b'/' => Kind::Slash,
        b':' => Kind::Colon,
        b'|' => Kind::Bar,
        b'.' => Kind::Dot,
        b'\n' => Kind::LineEnd,
        _ => Kind::None,
    }
}

#[cfg(test)]
mod tests {
    use super::*;

    #[test]
    fn the_256_values_fall_into_26_modules_26_events_10_marks_and_one_line_end() {
        let mut counts = [0; 5];
        for byte in 0..=255u8 {
            let place = match kind(byte) {
                Kind::Module(letter) if letter == byte => 0,
                Kind::Event(letter) if letter == byte => 1,
                Kind::LineEnd => 2,
                Kind::None => 3,
                _ => 4,
            };
            counts[place] += 1;
        }
        assert_eq!(counts, [26, 26, 1, 193, 10]);
    }

    #[test]
    fn the_ten_marks_have_ten_kinds() {
        let kinds: Vec<Kind> = b"1[]{}*/:|.".iter().map(|b| kind(*b)).collect();
        for (i, one) in kinds.iter().enumerate() {
            assert!(!matches!(
                one,
                Kind::Module(_) | Kind::Event(_) | Kind::LineEnd | Kind::None
            ));
            assert!(!kinds[..i].contains(one), "{one:?} twice");
        }
    }

    #[test]
    fn the_neighbours_of_the_ranges_are_no_letters() {
        assert_eq!(kind(b'a'), Kind::Module(b'a'));
        assert_eq!(kind(b'z'), Kind::Module(b'z'));
        assert_eq!(kind(b'A'), Kind::Event(b'A'));
        assert_eq!(kind(b'Z'), Kind::Event(b'Z'));
        for byte in [b'a' - 1, b'A' - 1, b'0', b'2', b' ', b'\r', 9, 11, 0, 255] {
            assert_eq!(kind(byte), Kind::None, "byte {byte}");
        }
    }
}
