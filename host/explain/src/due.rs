//! The records due in a file of n slices, and where they stand.

use model::layout::*;

use crate::words::below;

/// A record that is due, with n as it stands in the file.
#[derive(Clone, Copy, Debug, PartialEq, Eq)]
pub enum Due {
    Size { n: usize },
    Slice { number: usize, n: usize },
    End { n: usize },
}

/// A kind of record: its tag and the length of its body.
#[derive(Clone, Copy, Debug, PartialEq, Eq)]
pub struct Kind {
    pub tag: u8,
    pub name: &'static str,
    pub body: usize,
}

const SIZE: Kind = Kind {
    tag: TAG_SIZE,
    name: "size",
    body: SIZE_BODY,
};
const SLICE: Kind = Kind {
    tag: TAG_SLICE,
    name: "slice",
    body: SLICE_BODY,
};
const END: Kind = Kind {
    tag: TAG_END,
    name: "end",
    body: END_BODY,
};

impl Kind {
    /// The kind that has a tag.
    pub fn tagged(tag: u8) -> Option<Kind> {
        [SIZE, SLICE, END].into_iter().find(|kind| kind.tag == tag)
    }

    /// The tag with the kind's name.
    pub fn worded(self) -> String {
        format!("{} ({})", self.tag, self.name)
    }

    /// The bytes that such a record begins with.
    pub fn header(self) -> [u8; HEADER] {
        header(self.tag, self.body)
    }
}

impl Due {
    /// The record due after this one.
    pub fn next(self) -> Option<Due> {
        let (number, n) = match self {
            Due::Size { n } => (0, n),
            Due::Slice { number, n } => (number + 1, n),
            Due::End { .. } => return None,
        };
        Some(match number < n {
            true => Due::Slice { number, n },
            false => Due::End { n },
        })
    }

    pub fn kind(self) -> Kind {
        match self {
            Due::Size { .. } => SIZE,
            Due::Slice { .. } => SLICE,
            Due::End { .. } => END,
        }
    }

    /// Where the record begins.
    pub fn place(self) -> usize {
        match self {
            Due::Size { .. } => 0,
            Due::Slice { number, .. } => record_start(number),
            Due::End { n } => record_start(n),
        }
    }

    /// Where the record ends: the first byte after it.
    pub fn end(self) -> usize {
        self.place() + HEADER + self.kind().body
    }

    /// Whether what is due after the record stands at its place: the next one's header, or the end
    /// of the file.
    pub fn is_followed(self, file: &[u8]) -> bool {
        match (file.get(self.end()..), self.next()) {
            (Some(rest), Some(next)) => rest.starts_with(&next.kind().header()),
            (Some(rest), None) => rest.is_empty(),
            (None, _) => false,
        }
    }

    pub fn is_end(self) -> bool {
        matches!(self, Due::End { .. })
    }

    pub fn name(self) -> String {
        match self {
            Due::Slice { n: 1, .. } => "slice 0 (the only one)".to_string(),
            Due::Slice { number, n } => format!("slice {number} (of {})", below(n)),
            Due::Size { .. } | Due::End { .. } => format!("the {} record", self.kind().name),
        }
    }
}
