//! The store's calls, and what a caller has of one afterwards.
use library::store::Opening;

#[derive(Clone, Debug, PartialEq)]
pub enum Call {
    Open(Opening),
    Add {
        point: Vec<u32>,
        label: usize,
    },
    Inc(usize, usize),
    Dec(usize, usize),
    Adjust(Vec<[usize; 4]>),
    Compact,
    Copy {
        index: usize,
        out: usize,
    },
    Count(usize),
    LiveNumber,
    FreeStart,
    IsEqual {
        index: usize,
        point: Vec<u32>,
    },
    PointSum {
        items: Vec<[usize; 2]>,
        out: usize,
    },
    ShingledPoint {
        point: Vec<u32>,
        out: usize,
    },
    MissingIndices {
        look_ahead: usize,
        values: Vec<usize>,
        out: usize,
    },
    NextIndices {
        look_ahead: usize,
        out: usize,
    },
    Label(usize),
    Attribute(usize),
    AttributeVec {
        label: usize,
        out: usize,
    },
}

pub const NAMES: [&str; 18] = [
    "open",
    "add",
    "inc",
    "dec",
    "adjust",
    "compact",
    "copy",
    "count",
    "live_number",
    "free_start",
    "is_equal",
    "point_sum",
    "shingled_point",
    "missing_indices",
    "next_indices",
    "label",
    "attribute",
    "attribute_vec",
];

impl Call {
    /// The call's place in `NAMES`.
    pub fn kind(&self) -> usize {
        match self {
            Call::Open(_) => 0,
            Call::Add { .. } => 1,
            Call::Inc(..) => 2,
            Call::Dec(..) => 3,
            Call::Adjust(_) => 4,
            Call::Compact => 5,
            Call::Copy { .. } => 6,
            Call::Count(_) => 7,
            Call::LiveNumber => 8,
            Call::FreeStart => 9,
            Call::IsEqual { .. } => 10,
            Call::PointSum { .. } => 11,
            Call::ShingledPoint { .. } => 12,
            Call::MissingIndices { .. } => 13,
            Call::NextIndices { .. } => 14,
            Call::Label(_) => 15,
            Call::Attribute(_) => 16,
            Call::AttributeVec { .. } => 17,
        }
    }
}

/// What a caller's lent numbers, words and list entries hold before a call.
pub const UNTOUCHED: u64 = 0x5555_aaaa_5555_aaaa;
pub const UNTOUCHED_WORD: u32 = 0x5a5a_a5a5;

/// An add lends as many numbers; the last is its figure, how many indices remain free.
pub const NUMBERS: usize = 6;
pub const FIGURE: usize = 5;

/// What a call returned, and what the answers that the caller lent hold after it.
#[derive(Clone, Debug, PartialEq)]
pub struct Returned {
    pub value: u64,
    pub numbers: [u64; NUMBERS],
    pub words: Vec<u32>,
    pub list: Vec<usize>,
}

impl Returned {
    /// The answers as they are lent.
    pub fn lent(call: &Call) -> Self {
        let (words, list) = match call {
            Call::Copy { out, .. }
            | Call::PointSum { out, .. }
            | Call::ShingledPoint { out, .. }
            | Call::AttributeVec { out, .. } => (*out, 0),
            Call::MissingIndices { out, .. } | Call::NextIndices { out, .. } => (0, *out),
            _ => (0, 0),
        };
        Returned {
            value: 0,
            numbers: [UNTOUCHED; NUMBERS],
            words: vec![UNTOUCHED_WORD; words],
            list: vec![UNTOUCHED as usize; list],
        }
    }

    /// A NaN in a sum matches any NaN.
    pub fn with_one_nan(mut self, call: &Call) -> Self {
        if let Call::PointSum { .. } = call {
            for word in self.words.iter_mut().filter(|w| f32::from_bits(**w).is_nan()) {
                *word = f32::NAN.to_bits();
            }
        }
        self
    }
}
