//! Why there is no body, no answer or no table.
use std::error::Error;
use std::fmt;

/// Why there is no body, no answer or no table.
#[derive(Clone, Copy, Debug, PartialEq, Eq, Hash)]
#[non_exhaustive]
pub enum Refusal {
    /// An allocation was refused.
    OutOfMemory,
    /// The input spells no value of the root.
    InvalidInput,
    /// The input spells no value of the root, and may open 128 containers or more at once.
    TooDeep,
    /// The input spells no value of the root, and has a big number that leaves the limits of its kind.
    TooWide,
    /// The input spells no value of the root, and has a number that no instant or document carries.
    NotCarried,
    /// The wanted wire has no documents.
    Document,
    /// The wanted wire has no nulls.
    Null,
    /// The wanted wire doesn't hold an instant of the value.
    Instant,
    /// The text is no table.
    TableRefused,
    /// The table has no shape of this name.
    NoSuchShape,
    /// The root is no structure.
    NotAStructure,
    /// The task was prepared by another table.
    OtherTable,
    /// As `InvalidInput`, of the second of two bodies.
    SecondInvalidInput,
    /// As `TooDeep`, of the second of two bodies.
    SecondTooDeep,
    /// As `TooWide`, of the second of two bodies.
    SecondTooWide,
    /// As `NotCarried`, of the second of two bodies.
    SecondNotCarried,
    /// The body is no text of its wire.
    NotWellFormed,
    /// More than 512 containers of the body nest.
    TooNested,
    /// The pair of this number, from 1, has no `=`, a `%` without two hexadecimal digits after it, or a side that isn't UTF-8.
    BadPair(u64),
    /// The first pair of the form isn't named `Action`, or the second isn't named `Version`.
    NotAForm,
    /// The pair of this number has the name of an earlier one.
    RepeatedPath(u64),
    /// The pairs of the form are those of no value of the root.
    NoValue,
}

impl Refusal {
    pub(crate) fn of_form(status: u8, pair: u64) -> Refusal {
        match status {
            70 => Refusal::BadPair(pair),
            72 => Refusal::RepeatedPath(pair),
            status => Refusal::of_status(status),
        }
    }

    pub(crate) fn of_status(status: u8) -> Refusal {
        match status {
            10 => Refusal::InvalidInput,
            11 => Refusal::TooDeep,
            12 => Refusal::TooWide,
            13 => Refusal::NotCarried,
            14 => Refusal::Document,
            15 => Refusal::Null,
            16 => Refusal::Instant,
            20 => Refusal::TableRefused,
            21 => Refusal::NoSuchShape,
            22 => Refusal::NotAStructure,
            2 => Refusal::OtherTable,
            41 => Refusal::SecondInvalidInput,
            42 => Refusal::SecondTooDeep,
            43 => Refusal::SecondTooWide,
            44 => Refusal::SecondNotCarried,
            61 => Refusal::NotWellFormed,
            62 => Refusal::TooNested,
            71 => Refusal::NotAForm,
            73 => Refusal::NoValue,
            // 8, and no other: wires are enums, and the texts of a form are UTF-8, so 2 is told of tasks alone
            _ => Refusal::OutOfMemory,
        }
    }
}

impl fmt::Display for Refusal {
    fn fmt(&self, f: &mut fmt::Formatter<'_>) -> fmt::Result {
        f.write_str(match self {
            Refusal::BadPair(pair) => return write!(f, "bad pair {pair}"),
            Refusal::RepeatedPath(pair) => return write!(f, "repeated path {pair}"),
            Refusal::OutOfMemory => "out of memory",
            Refusal::InvalidInput | Refusal::SecondInvalidInput => "invalid input",
            Refusal::TooDeep | Refusal::SecondTooDeep => "too deep",
            Refusal::TooWide | Refusal::SecondTooWide => "number too wide",
            Refusal::NotCarried | Refusal::SecondNotCarried => "not carried",
            Refusal::Document => "document not expressible",
            Refusal::Null => "null not expressible",
            Refusal::Instant => "instant not expressible",
            Refusal::TableRefused => "table refused",
            Refusal::NoSuchShape => "no such shape",
            Refusal::NotAStructure => "not a structure",
            Refusal::OtherTable => "a task of another table",
            Refusal::NotWellFormed => "not well formed",
            Refusal::TooNested => "too nested",
            Refusal::NotAForm => "not a form",
            Refusal::NoValue => "no value",
        })
    }
}

impl Error for Refusal {}
