//! Why a call was refused.

use core::error::Error;
use core::fmt;

/// What a call answers: a value, or why it was refused.
pub type Result<T> = core::result::Result<T, Refusal>;

/// Why a call was refused: the causes in the order of their numbers. Later versions have more.
///
/// A refused call changes nothing, except that [`FloatSpaceFull`](Refusal::FloatSpaceFull) leaves
/// the store compacted and grown, and that the pairs before an adjust's refused one stand.
///
/// ```
/// use point_store::{PointStore, ProvedPointStore, Refusal};
///
/// let mut store = ProvedPointStore::new(4, 2, 10, 5, true, false, false, false).unwrap();
/// let refusal = store.add(&[1.0, 2.0, 3.0], 0).unwrap_err();
/// assert_eq!(refusal, Refusal::Length);
/// assert_eq!(refusal.number(), 3);
/// assert_eq!(refusal.text(), "wrong length of a point or output slice");
/// assert_eq!(refusal.to_string(), "wrong length of a point or output slice (refusal 3)");
/// ```
#[derive(Clone, Copy, Debug, PartialEq, Eq, Hash)]
#[non_exhaustive]
pub enum Refusal {
    /// 1: ill-formed store, hold or manager, or a lent slice too short. No call of a
    /// [`ProvedPointStore`](crate::ProvedPointStore) or a [`Hold`](crate::Hold) gives it: what is
    /// opened is well-formed, every call keeps it so, and nothing else reaches its memory.
    IllFormed,
    /// 2: shape outside the bounds, or not that of a product, on opening.
    Shape,
    /// 3: wrong length of a point or output slice.
    Length,
    /// 4: label code above 23, labels on.
    LabelCode,
    /// 5: index not below the table length, or with count 0.
    PointNotInUse,
    /// 6: label index not in use.
    LabelNotInUse,
    /// 7: inc of a point or label count at 65,535.
    CountFull,
    /// 8: labels on, every label index in use.
    LabelsFull,
    /// 9: no index free and the table cannot grow.
    PointsFull,
    /// 10: no float space, after compaction and growth.
    FloatSpaceFull,
    /// 11: listed value or kind too large, look-ahead above 65,535 or weight above 16,777,216.
    ValueTooLarge,
    /// 12: sequence number at 4,294,967,295.
    SequenceFull,
    /// 13: manager opened at 0, or opened at or changed to above 1,024; no call of a store gives it.
    ManagerCapacity,
    /// 14: release of an index free or not below the capacity; no call of a store gives it.
    NotReleasable,
    /// 15: hold opened with a width of 0 or not below the capacity.
    HoldWidth,
    /// 16: an absent reading of a probe with no earlier one.
    NoEarlierReading,
    /// 17: a text that is not that of an allowed table of classes, on opening.
    ClassText,
    /// 18: a lent text too short for what is written.
    TextLength,
    /// A number that this version of the crate does not know, from a later library.
    Other(u64),
}

/// The causes by their numbers, in order.
const CAUSES: [(u64, Refusal); 18] = [
    (1, Refusal::IllFormed),
    (2, Refusal::Shape),
    (3, Refusal::Length),
    (4, Refusal::LabelCode),
    (5, Refusal::PointNotInUse),
    (6, Refusal::LabelNotInUse),
    (7, Refusal::CountFull),
    (8, Refusal::LabelsFull),
    (9, Refusal::PointsFull),
    (10, Refusal::FloatSpaceFull),
    (11, Refusal::ValueTooLarge),
    (12, Refusal::SequenceFull),
    (13, Refusal::ManagerCapacity),
    (14, Refusal::NotReleasable),
    (15, Refusal::HoldWidth),
    (16, Refusal::NoEarlierReading),
    (17, Refusal::ClassText),
    (18, Refusal::TextLength),
];

/// The texts of 0 and of the causes in order, and last that of every other number: the words of the C header's
/// `ps_refusal_text`.
const TEXTS: [&str; 20] = [
    "accepted",
    "ill-formed store, hold, product or manager, or a lent slice too short for its part",
    "shape outside the bounds",
    "wrong length of a point or output slice",
    "label code above 23",
    "index not in use",
    "label index not in use",
    "a count at 65,535 cannot rise",
    "every label index is in use",
    "no index free and the table cannot grow",
    "no float space after compaction and growth",
    "listed value, look-ahead or weight too large",
    "sequence number at its limit",
    "manager capacity outside 1 to 1,024",
    "index free already, or not below the capacity",
    "hold width of 0, or not below the capacity",
    "an absent reading of a probe with no earlier one",
    "text that is not that of an allowed table of classes",
    "text too short for what is written",
    "no refusal of this library",
];

impl Refusal {
    /// The number of this cause, as C has it.
    pub fn number(self) -> u64 {
        match self {
            Refusal::Other(number) => number,
            _ => CAUSES
                .iter()
                .find_map(|(number, cause)| (*cause == self).then_some(*number))
                .unwrap_or(0),
        }
    }

    /// The cause in words, the same as in C.
    pub fn text(self) -> &'static str {
        let at = CAUSES
            .iter()
            .position(|(number, _)| *number == self.number());
        TEXTS[at.map_or(TEXTS.len() - 1, |at| at + 1)]
    }

    /// What a return value of the library stands for: 0 is no refusal.
    pub(crate) fn of_number(number: u64) -> Result<()> {
        match number {
            0 => Ok(()),
            _ => Err(CAUSES
                .iter()
                .find_map(|(known, cause)| (*known == number).then_some(*cause))
                .unwrap_or(Refusal::Other(number))),
        }
    }
}

impl fmt::Display for Refusal {
    fn fmt(&self, f: &mut fmt::Formatter<'_>) -> fmt::Result {
        write!(f, "{} (refusal {})", self.text(), self.number())
    }
}

impl Error for Refusal {}

/// Why an adjust was refused, and how many pairs stand before the refused one.
///
/// These pairs stay done; skipped ones are counted among them.
#[derive(Clone, Copy, Debug, PartialEq, Eq, Hash)]
pub struct AdjustRefusal {
    /// Why the pair was refused.
    pub refusal: Refusal,
    /// How many pairs stand before it: its position in the list.
    pub pairs_before: usize,
}

impl fmt::Display for AdjustRefusal {
    fn fmt(&self, f: &mut fmt::Formatter<'_>) -> fmt::Result {
        write!(f, "pair {}: {}", self.pairs_before, self.refusal)
    }
}

impl Error for AdjustRefusal {
    fn source(&self) -> Option<&(dyn Error + 'static)> {
        Some(&self.refusal)
    }
}

impl From<AdjustRefusal> for Refusal {
    fn from(adjust: AdjustRefusal) -> Refusal {
        adjust.refusal
    }
}

#[cfg(test)]
mod tests {
    use super::*;

    #[test]
    fn every_number_stands_for_its_cause() {
        assert_eq!(Refusal::of_number(0), Ok(()));
        for (number, cause) in CAUSES {
            let refusal = Refusal::of_number(number).unwrap_err();
            assert_eq!(refusal, cause);
            assert_eq!(refusal.number(), number);
        }
    }

    #[test]
    fn an_unknown_number_is_kept() {
        let refusal = Refusal::of_number(99).unwrap_err();
        assert_eq!(refusal, Refusal::Other(99));
        assert_eq!(refusal.number(), 99);
        assert_eq!(Refusal::of_number(u64::MAX), Err(Refusal::Other(u64::MAX)));
    }

    #[test]
    fn the_texts_are_those_of_the_header() {
        let header = include_str!("../../../include/point_store.h");
        let (_, texts) = header.split_once("ps_refusal_text(").unwrap();
        let (texts, _) = texts.split_once("\n}\n").unwrap();
        let texts: Vec<&str> = texts.split('"').skip(1).step_by(2).collect();
        assert_eq!(texts, TEXTS);
        for (at, (number, _)) in CAUSES.iter().enumerate() {
            let refusal = Refusal::of_number(*number).unwrap_err();
            assert_eq!(refusal.text(), texts[at + 1]);
        }
        assert_eq!(Refusal::Other(19).text(), texts[19]);
        assert_eq!(Refusal::Other(u64::MAX).text(), texts[19]);
    }

    #[test]
    fn an_adjust_refusal_names_the_pair() {
        let adjust = AdjustRefusal {
            refusal: Refusal::CountFull,
            pairs_before: 2,
        };
        assert_eq!(
            adjust.to_string(),
            "pair 2: a count at 65,535 cannot rise (refusal 7)"
        );
        assert_eq!(Refusal::from(adjust), Refusal::CountFull);
    }
}
