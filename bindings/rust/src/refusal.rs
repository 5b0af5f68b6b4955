//! Document 01's numbers as an error.
use std::error::Error;
use std::fmt;

/// Why a call was refused. Each is given exactly when its words are true, and by its place in document 01's order where several are:
/// 1, 2, 4, 3, 6, 5, then the order of reading (the writer: 4, 3, 9, 10, 8, 11, 12). The plain functions give 24 behind 4 and before 3.
#[derive(Clone, Copy, Debug, PartialEq, Eq, Hash)]
#[non_exhaustive]
pub enum Refusal {
    /// 1: payload under 2 bytes.
    ShortPayload = 1,
    /// 2: payload over 16,777,216 bytes.
    LongPayload = 2,
    /// 3: impossible state. A context byte above 127; a statistic above 84; a position beyond 8 times the payload length; a total past the
    /// end above 65,535; or, unless ended, not 256 ≤ range ≤ 510 with offset < range.
    ImpossibleState = 3,
    /// 4: parameter out of its limits.
    BadParameter = 4,
    /// 5: starting offset 510 or 511.
    BadStart = 5,
    /// 6: engine has ended.
    Ended = 6,
    /// 7: alignment wanted while the offset is 256 or more.
    BadAlignment = 7,
    /// 8: level outside the coefficient range, −2^T to 2^T − 1: T is 15; with [`extended`](crate::Params::extended)
    /// depth + 6, if that is more.
    LevelOutOfRange = 8,
    /// 9: writer: all levels zero.
    AllZero = 9,
    /// 10: writer: skip or RDPCM set where it isn't coded. Skip is coded where it is allowed and the block not lossless, RDPCM where it is enabled in an
    /// inter block with skip or lossless.
    NotCoded = 10,
    /// 11: writer: a hidden sign disagrees with its parity.
    HiddenSign = 11,
    /// 12: writer: list longer than the room.
    ShortRoom = 12,
    /// 13: bin reader: list ends early, has another tag, or has bins left over.
    BadList = 13,
    /// 20: book: line is not lower-case hexadecimal, has an odd count of digits, or no line feed at the end.
    BadLine = 20,
    /// 21: book: line is not as long as it says.
    LineLength = 21,
    /// 22: book: line is too long; press: a payload over 4,096 bytes, whose line would be.
    LongLine = 22,
    /// 23: figures: 4,096 accepted blocks are there.
    FiguresFull = 23,
    /// 24: plain functions: an option or a statistic outside plain.
    NotPlain = 24,
}

impl Refusal {
    /// All of them, in the order of their numbers.
    pub const ALL: [Refusal; 18] = [
        Refusal::ShortPayload,
        Refusal::LongPayload,
        Refusal::ImpossibleState,
        Refusal::BadParameter,
        Refusal::BadStart,
        Refusal::Ended,
        Refusal::BadAlignment,
        Refusal::LevelOutOfRange,
        Refusal::AllZero,
        Refusal::NotCoded,
        Refusal::HiddenSign,
        Refusal::ShortRoom,
        Refusal::BadList,
        Refusal::BadLine,
        Refusal::LineLength,
        Refusal::LongLine,
        Refusal::FiguresFull,
        Refusal::NotPlain,
    ];

    /// The refusal of a number; none of 0, which is accepted, and of what is no number.
    pub fn of_number(number: u32) -> Option<Refusal> {
        Refusal::ALL.into_iter().find(|refusal| refusal.number() == number)
    }

    /// The papers' number.
    pub const fn number(self) -> u32 {
        self as u32
    }

    /// The same in words, those of the header's `bulmegart_reason`.
    pub const fn reason(self) -> &'static str {
        match self {
            Refusal::ShortPayload => "payload under 2 bytes",
            Refusal::LongPayload => "payload over 16,777,216 bytes",
            Refusal::ImpossibleState => "impossible state",
            Refusal::BadParameter => "parameter out of its limits",
            Refusal::BadStart => "starting offset 510 or 511",
            Refusal::Ended => "engine has ended",
            Refusal::BadAlignment => "alignment wanted while the offset is 256 or more",
            Refusal::LevelOutOfRange => "level outside the coefficient range",
            Refusal::AllZero => "writer: all levels zero",
            Refusal::NotCoded => "writer: skip or RDPCM set where it isn't coded",
            Refusal::HiddenSign => "writer: a hidden sign disagrees with its parity",
            Refusal::ShortRoom => "writer: list longer than the room",
            Refusal::BadList => "bin reader: list ends early, has another tag, or has bins left over",
            Refusal::BadLine => "book: line is not lower-case hexadecimal",
            Refusal::LineLength => "book: line is not as long as it says",
            Refusal::LongLine => "book: line is too long",
            Refusal::FiguresFull => "figures: 4,096 accepted blocks are there",
            Refusal::NotPlain => "plain functions: an option or a statistic outside plain",
        }
    }
}

impl fmt::Display for Refusal {
    fn fmt(&self, f: &mut fmt::Formatter<'_>) -> fmt::Result {
        write!(f, "refused, number {}: {}", self.number(), self.reason())
    }
}

impl Error for Refusal {}
