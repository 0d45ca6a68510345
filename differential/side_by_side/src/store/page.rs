//! The page: one line for each live index, held to a plain model, in text slices of every length.
use super::beyond::any_bounds;
use super::breaking::with_broken;
use super::made_up::any_store;
use super::memory::*;
use super::well_formed::{broken, is_well_formed, CLAUSES};
use crate::coverage::Coverage;
use crate::mutant;
use library::store::Lent;
use random::Random;

const LINE: usize = 19;
const UNTOUCHED: u8 = 0xa5;
const UNTOLD: u64 = 0xa5a5;

pub const KINDS: [&str; 8] = [
    "stores",
    "calls",
    "a page in as many bytes",
    "a page in more bytes",
    "a page of no line",
    "a page of more than a hundred lines",
    "refused with 18",
    "refused with 1",
];

/// The page of a well-formed store.
fn page_of(m: &Lent) -> Vec<u8> {
    let mut indices: Vec<usize> = (0..word(m, TABLE_LENGTH)).filter(|i| is_live(m, *i)).collect();
    if mutant::is("page-lists-a-dead-index") {
        indices = (0..word(m, TABLE_LENGTH)).collect();
    }
    if mutant::is("page-in-falling-order") {
        indices.reverse();
    }
    if mutant::is("page-in-order-of-place") {
        indices.sort_by_key(|i| m.location[*i]);
    }
    let width = if mutant::is("page-in-seven-columns") { 7 } else { 6 };
    let mut text = String::new();
    for i in indices {
        let (count, place) = (m.reference_count[i], m.location[i]);
        if mutant::is("page-with-leading-zeros") {
            text += &format!("{i:0width$}{count:0width$}{place:0width$}\n");
        } else {
            text += &format!("{i:>width$}{count:>width$}{place:>width$}\n");
        }
    }
    text.into_bytes()
}

/// The return value, the text and the length that a call owes in a text of so many bytes.
fn owed(is_well: bool, page: &[u8], room: usize) -> (u64, Vec<u8>, u64) {
    let mut text = vec![UNTOUCHED; room];
    if mutant::is("page-refuses-18-before-1") && room < page.len() {
        return (18, text, UNTOLD);
    }
    if !is_well {
        return (1, text, UNTOLD);
    }
    if room < page.len() {
        return (18, text, UNTOLD);
    }
    text[..page.len()].copy_from_slice(page);
    (0, text, page.len() as u64)
}

fn called(m: &mut Lent, room: usize) -> (u64, Vec<u8>, u64) {
    let mut text = vec![UNTOUCHED; room];
    let mut length = UNTOLD;
    let value = m.page(&mut text, &mut length);
    if mutant::is("harness-writes-past-the-page") && value == 0 && length < room as u64 {
        text[length as usize] = b'\n';
    }
    if mutant::is("harness-writes-to-a-text-too-short") && value == 18 && room > 0 {
        text[0] = b' ';
    }
    (value, text, length)
}

fn compared(m: &mut Lent, is_well: bool, page: &[u8], room: usize, coverage: &mut Coverage) -> Result<(), String> {
    let owed = owed(is_well, page, room);
    let got = called(m, room);
    if got != owed {
        return Err(format!(
            "a page in {room} bytes: {}, {}, {:?}, and not {}, {}, {:?}",
            got.0,
            got.2,
            String::from_utf8_lossy(&got.1),
            owed.0,
            owed.2,
            String::from_utf8_lossy(&owed.1),
        ));
    }
    coverage.meet("calls");
    match got.0 {
        0 if room == page.len() => coverage.meet("a page in as many bytes"),
        0 => coverage.meet("a page in more bytes"),
        18 => coverage.meet("refused with 18"),
        _ => coverage.meet("refused with 1"),
    }
    Ok(())
}

/// A store in texts of these lengths: its record and tables stay as they were.
fn in_rooms(
    m: &mut Lent,
    page: &[u8],
    rooms: impl IntoIterator<Item = usize>,
    coverage: &mut Coverage,
) -> Result<(), String> {
    let before = m.clone();
    let is_well = is_well_formed(m);
    for room in rooms {
        compared(m, is_well, page, room, coverage)?;
    }
    if *m == before {
        Ok(())
    } else {
        Err(format!("a page changed {before:?} to {m:?}"))
    }
}

/// Stores of many shapes, each in a text of every length from 0 to two lines past its page; every clause of well-formedness
/// broken, in texts that are long enough and that are not.
pub fn in_every_length(seed: u64, stores: u64, coverage: &mut Coverage) -> Result<(), String> {
    let mut random = Random::new(seed);
    while coverage.count("stores") < stores || coverage.count("a page of more than a hundred lines") == 0 {
        let mut m = any_store(any_bounds(&mut random), &mut random);
        let page = page_of(&m);
        coverage.meet("stores");
        match page.len() / LINE {
            0 => coverage.meet("a page of no line"),
            101.. => coverage.meet("a page of more than a hundred lines"),
            _ => {}
        }
        in_rooms(&mut m, &page, 0..=page.len() + 2 * LINE, coverage)?;
    }
    for clause in CLAUSES {
        for _ in 0..20 {
            let well = any_store(any_bounds(&mut random), &mut random);
            let page = page_of(&well);
            let mut m = with_broken(clause, well, &mut random);
            if broken(&m).is_empty() {
                continue;
            }
            let rooms = [0, page.len() / 2, page.len(), page.len() + LINE];
            in_rooms(&mut m, &page, rooms, coverage)?;
        }
    }
    Ok(())
}
