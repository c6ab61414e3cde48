//! What is found in a body.
use std::fmt;

/// What is wrong with a body at a path.
#[derive(Clone, Copy, Debug, PartialEq, Eq, Hash)]
#[non_exhaustive]
pub enum Kind {
    /// The entry names no member of its structure or union.
    Unknown,
    /// What stands there is of another kind, or no value of its kind.
    Mismatch,
    /// A big number leaves the limits of its kind.
    Wide,
    /// The kind can't carry it: a fraction of a nanosecond, a number in a document, a document in CBOR.
    NotCarried,
    /// More than 128 containers would be open.
    Deep,
    /// A key of the container at the path is no text.
    Key,
    /// The union doesn't have one member.
    Union,
    /// A null stands in a list or a map that isn't sparse.
    Null,
}

impl Kind {
    fn of_number(number: u8) -> Kind {
        match number {
            1 => Kind::Unknown,
            2 => Kind::Mismatch,
            3 => Kind::Wide,
            4 => Kind::NotCarried,
            5 => Kind::Deep,
            6 => Kind::Key,
            7 => Kind::Union,
            // 8, and no other
            _ => Kind::Null,
        }
    }
}

impl fmt::Display for Kind {
    fn fmt(&self, f: &mut fmt::Formatter<'_>) -> fmt::Result {
        f.write_str(match self {
            Kind::Unknown => "unknown",
            Kind::Mismatch => "mismatch",
            Kind::Wide => "wide",
            Kind::NotCarried => "not carried",
            Kind::Deep => "deep",
            Kind::Key => "key",
            Kind::Union => "union",
            Kind::Null => "null",
        })
    }
}

/// What is found in a body at one path.
#[derive(Clone, Copy, Debug, PartialEq, Eq, Hash)]
pub struct Finding<'a> {
    /// The text of the path, as `$.l[0]`.
    pub path: &'a str,
    /// What is wrong there.
    pub kind: Kind,
}

/// All that is found in a body.
#[derive(Clone, Debug, Default, PartialEq, Eq)]
pub struct Findings {
    pub(crate) texts: String,
    pub(crate) lens: Vec<usize>,
    pub(crate) kinds: Vec<u8>,
}

impl Findings {
    /// How many findings there are.
    pub fn len(&self) -> usize {
        self.lens.len()
    }

    /// Nothing was found.
    pub fn is_empty(&self) -> bool {
        self.lens.is_empty()
    }

    /// The findings, in the order of the body.
    pub fn iter(&self) -> impl Iterator<Item = Finding<'_>> {
        let mut left = self.texts.as_str();
        self.lens.iter().zip(&self.kinds).map(move |(&len, &kind)| {
            let (path, rest) = left.split_at(len);
            left = rest;
            Finding {
                path,
                kind: Kind::of_number(kind),
            }
        })
    }
}
