use crate::library::Answer;
use std::fmt;

/// The buffer in which an unusable entry lies.
#[derive(Clone, Copy, Debug, PartialEq, Eq, Hash)]
pub enum Buffer {
    /// The bundle, buffer 0.
    Bundle,
    /// The curves, buffer 1.
    Curves,
}

/// Why a call was refused: the eleven causes that include/sid_filter.h lists. Its text is the sentence, with the place where there is one.
#[derive(Clone, Copy, Debug, PartialEq, Eq, Hash)]
pub enum Refusal {
    /// 1: the bundle has another length.
    BundleLength,
    /// 2: the bundle's header is not the fixed one.
    Header {
        /// The byte of the first difference.
        place: u32,
    },
    /// 3: an entry is not finite or above 1,024 in magnitude.
    Entry {
        /// The buffer that the entry lies in.
        buffer: Buffer,
        /// The byte at which the first such entry begins.
        place: u32,
    },
    /// 4: the curves have another length.
    CurvesLength,
    /// 5: a sample's input sum or source energy is not finite.
    InputNotFinite,
    /// 6: a number of the state, an output, a control or a sum would not be finite.
    Domain,
    /// 7: the bytes are no script.
    Script,
    /// 8: the output has too little room.
    OutputLength,
    /// 10: the state block is invalid, or a number that is handed in by itself is past its table or not finite.
    Argument,
    /// 11: a number of a voice, a level or a blend is not finite, or a voice's selection is above 15.
    Sources,
    /// 12: one of the decays is not from 0 to 1.
    Decays,
}

impl Refusal {
    /// The cause's number in the table, 1 to 8 or 10 to 12; 9 is unused.
    pub fn number(self) -> u32 {
        match self {
            Refusal::BundleLength => 1,
            Refusal::Header { .. } => 2,
            Refusal::Entry { .. } => 3,
            Refusal::CurvesLength => 4,
            Refusal::InputNotFinite => 5,
            Refusal::Domain => 6,
            Refusal::Script => 7,
            Refusal::OutputLength => 8,
            Refusal::Argument => 10,
            Refusal::Sources => 11,
            Refusal::Decays => 12,
        }
    }

    /// The cause in words, without its place: those of the program `bounce`.
    pub fn sentence(self) -> &'static str {
        match self {
            Refusal::BundleLength => "the bundle is not 6,127,736 bytes long",
            Refusal::Header { .. } => "the bundle's header differs",
            Refusal::Entry { buffer: Buffer::Bundle, .. } => "an entry of the bundle is unusable",
            Refusal::Entry { buffer: Buffer::Curves, .. } => "an entry of the curves is unusable",
            Refusal::CurvesLength => "the curve buffer is not 254,076 bytes long",
            Refusal::InputNotFinite => "the input sum or the source energy is not finite",
            Refusal::Domain => "a number would be outside the finite domain",
            Refusal::Script => {
                "the script's length is not 8 + 12 x count, or its offset, its count, an event's kind or its zero bytes are wrong"
            }
            Refusal::OutputLength => "the output is shorter than 16 bytes a sample event",
            Refusal::Argument => "the state block is invalid",
            Refusal::Sources => "a voice, or a number lent beside the voices, is invalid",
            Refusal::Decays => "the decays are not six numbers from 0 to 1",
        }
    }

    /// The buffer that the cause names.
    pub fn buffer(self) -> Option<Buffer> {
        match self {
            Refusal::Entry { buffer, .. } => Some(buffer),
            _ => None,
        }
    }

    /// The byte place that the cause names.
    pub fn place(self) -> Option<u32> {
        match self {
            Refusal::Header { place } | Refusal::Entry { place, .. } => Some(place),
            _ => None,
        }
    }

    /// The refusal of an answer; none on success, number 0.
    pub(crate) fn check(answer: Answer) -> Result<(), Refusal> {
        let place = answer.place;
        let buffer = if answer.buffer == 0 { Buffer::Bundle } else { Buffer::Curves };
        Err(match answer.number {
            0 => return Ok(()),
            1 => Refusal::BundleLength,
            2 => Refusal::Header { place },
            3 => Refusal::Entry { buffer, place },
            4 => Refusal::CurvesLength,
            5 => Refusal::InputNotFinite,
            6 => Refusal::Domain,
            7 => Refusal::Script,
            8 => Refusal::OutputLength,
            10 => Refusal::Argument,
            11 => Refusal::Sources,
            12 => Refusal::Decays,
            number => unreachable!("the library answers 0 to 8 or 10 to 12, not {number}"),
        })
    }
}

impl fmt::Display for Refusal {
    fn fmt(&self, f: &mut fmt::Formatter) -> fmt::Result {
        f.write_str(self.sentence())?;
        match self.place() {
            Some(place) => write!(f, ", at byte {place}"),
            None => Ok(()),
        }
    }
}

impl std::error::Error for Refusal {}

#[cfg(test)]
mod tests {
    use super::{Buffer, Refusal};
    use crate::header::HEADER;
    use crate::library::Answer;

    /// The words of the program `bounce`, as its specification has them.
    const LINES: &str = include_str!("../../../crates/bounce_lines/specs/Lines.antt");

    fn answer(number: u32) -> Answer {
        Answer { number, events: 0, samples: 0, buffer: 1, place: 56 }
    }

    /// Each of the eleven has its number, and buffer and place where the table has them.
    #[test]
    fn every_number_has_its_refusal() {
        assert_eq!(Refusal::check(answer(0)), Ok(()));
        for number in (1..=8).chain(10..=12) {
            let refusal = Refusal::check(answer(number)).expect_err("a refusal");
            assert_eq!(refusal.number(), number);
            assert_eq!(refusal.buffer(), (number == 3).then_some(Buffer::Curves));
            assert_eq!(refusal.place(), (number == 2 || number == 3).then_some(56));
            assert!(refusal.to_string().starts_with(refusal.sentence()));
        }
    }

    /// The numbers are those of the header, which has no 9.
    #[test]
    fn the_numbers_are_those_of_the_header() {
        let named = [
            ("BUNDLE_LENGTH", Refusal::BundleLength),
            ("HEADER", Refusal::Header { place: 0 }),
            ("ENTRY", Refusal::Entry { buffer: Buffer::Bundle, place: 0 }),
            ("CURVES_LENGTH", Refusal::CurvesLength),
            ("INPUT_NOT_FINITE", Refusal::InputNotFinite),
            ("DOMAIN", Refusal::Domain),
            ("SCRIPT", Refusal::Script),
            ("OUTPUT_LENGTH", Refusal::OutputLength),
            ("ARGUMENT", Refusal::Argument),
            ("SOURCES", Refusal::Sources),
            ("DECAYS", Refusal::Decays),
        ];
        for (name, refusal) in named {
            let line = format!("    SID_FILTER_{name} = {}", refusal.number());
            assert!(HEADER.lines().any(|l| l.trim_end_matches(',') == line), "{line}");
        }
        assert!(!HEADER.contains("= 9"));
    }

    /// The sentences are those of `bounce`, word for word, and a place is named where it names one.
    #[test]
    fn the_sentences_are_those_of_bounce() {
        let (bundle, curves) = (Buffer::Bundle, Buffer::Curves);
        let named = [
            ("BundleLength", Refusal::BundleLength),
            ("(Header place)", Refusal::Header { place: 7 }),
            ("(Entry Bundle place)", Refusal::Entry { buffer: bundle, place: 7 }),
            ("(Entry Curves place)", Refusal::Entry { buffer: curves, place: 7 }),
            ("CurvesLength", Refusal::CurvesLength),
            ("InputNotFinite", Refusal::InputNotFinite),
            ("Domain", Refusal::Domain),
            ("Script", Refusal::Script),
            ("OutputLength", Refusal::OutputLength),
            ("Argument", Refusal::Argument),
            ("Sources", Refusal::Sources),
            ("Decays", Refusal::Decays),
        ];
        for (name, refusal) in named {
            let words = format!("ascii \"{}\"", refusal.sentence());
            let says = if refusal.place().is_some() { format!("placed_of ({words}) place") } else { words };
            let line = format!("words_of (Err {name}) = {says}");
            assert!(LINES.lines().any(|theirs| theirs == line), "{line}");
        }
        // These and the answer of success are all that it has.
        assert_eq!(LINES.lines().filter(|line| line.starts_with("words_of ") && line.contains('=')).count(), named.len() + 1);
    }

    /// The text is the sentence, and then the place as `bounce` words it.
    #[test]
    fn a_refusal_says_where() {
        assert!(LINES.contains(r#"placed_of words place = words ++ ascii ", at byte " ++ decimal_of place"#));
        assert_eq!(Refusal::Header { place: 4 }.to_string(), "the bundle's header differs, at byte 4");
        let entry = Refusal::Entry { buffer: Buffer::Curves, place: 8 };
        assert_eq!(entry.to_string(), "an entry of the curves is unusable, at byte 8");
        assert_eq!(Refusal::Argument.to_string(), "the state block is invalid");
    }
}
