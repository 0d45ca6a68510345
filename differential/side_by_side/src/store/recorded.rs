//! The recorded calls of the Rust (`recorder`), replayed on the library and the model: what the Rattle program `replay` does
//! again inside the gate.
use super::call::{Call, Returned};
use super::lent::rubbish_for;
use super::memory::*;
use super::sides::Sides;
use crate::coverage::Coverage;
use library::store::{Lent, Opening};
use random::Random;
use std::fs;

const RECORDED: &str = concat!(env!("CARGO_MANIFEST_DIR"), "/../../crates/replay/data/store_calls");

struct Line {
    call: usize,
    arguments: [usize; 2],
    numbers: Vec<usize>,
    value: usize,
    answers: Vec<usize>,
    free_start: usize,
    live_number: usize,
}

fn line(text: &str) -> Option<Line> {
    let mut numbers = text
        .split(' ')
        .map(|n| if n == "9999999999" { Some(NONE) } else { n.parse().ok() });
    let mut next = || numbers.next()?;
    let call = next()?;
    let arguments = [next()?, next()?];
    let n = next()?;
    let taken = (0..n).map(|_| next()).collect::<Option<Vec<usize>>>()?;
    let value = next()?;
    let m = next()?;
    let answers = (0..m).map(|_| next()).collect::<Option<Vec<usize>>>()?;
    let line = Line {
        call,
        arguments,
        numbers: taken,
        value,
        answers,
        free_start: next()?,
        live_number: next()?,
    };
    numbers.next().is_none().then_some(line)
}

fn words(numbers: &[usize]) -> Vec<u32> {
    numbers.iter().map(|n| *n as u32).collect()
}

fn opening(a: &[usize]) -> Opening {
    Opening {
        dimensions: a[0],
        shingle_size: a[1],
        capacity: a[2],
        initial_capacity: a[3],
        internal_shingling: a[4],
        internal_rotation: a[5],
        store_labels: a[6],
        ..Opening::default()
    }
}

fn call_of(line: &Line) -> Option<Call> {
    let ([first, second], numbers) = (line.arguments, &line.numbers);
    Some(match line.call {
        0 => Call::Open(opening(numbers)),
        1 => Call::Add {
            point: words(numbers),
            label: first,
        },
        2 => Call::Inc(first, second),
        3 => Call::Dec(first, second),
        4 => Call::Adjust(numbers.chunks(4).map(|p| [p[0], p[1], p[2], p[3]]).collect()),
        5 => Call::Compact,
        6 => Call::Copy {
            index: first,
            out: second,
        },
        7 => Call::Count(first),
        8 => Call::IsEqual {
            index: first,
            point: words(numbers),
        },
        9 => Call::PointSum {
            items: numbers.chunks(2).map(|p| [p[0], p[1]]).collect(),
            out: second,
        },
        10 => Call::ShingledPoint {
            point: words(numbers),
            out: second,
        },
        11 => Call::MissingIndices {
            look_ahead: first,
            values: numbers.clone(),
            out: second,
        },
        12 => Call::NextIndices {
            look_ahead: first,
            out: second,
        },
        13 => Call::Label(first),
        14 => Call::Attribute(first),
        15 => Call::AttributeVec {
            label: first,
            out: second,
        },
        _ => return None,
    })
}

/// The answers as a line has them: as many numbers as it has, or words, or a list. Where a call is refused, a line has only
/// how many pairs of an adjust stand before.
fn answers(got: &Returned, call: &Call, how_many: usize) -> Vec<usize> {
    if got.value != 0 && !matches!(call, Call::Adjust(_)) {
        return Vec::new();
    }
    match (got.words.len(), got.list.len()) {
        (0, 0) => got.numbers[..how_many.min(5)].iter().map(|n| *n as usize).collect(),
        (0, _) => got.list.clone(),
        _ => got.words.iter().map(|w| *w as usize).collect(),
    }
}

fn replay_line(text: &str, sides: &mut Sides, coverage: &mut Coverage) -> Result<(), String> {
    let line = line(text).ok_or("no line of the record")?;
    if line.call == 0 {
        *sides = Sides::over(rubbish_for(opening(&line.numbers), 1, &mut Random::new(4)));
    }
    let call = call_of(&line).ok_or("no recorded call")?;
    let got = sides.step(&call, coverage)?;
    let live_number = live_indices(&sides.model).len();
    if got.value as usize != line.value
        || answers(&got, &call, line.answers.len()) != line.answers
        || word(&sides.model, FREE_START) != line.free_start
        || live_number != line.live_number
    {
        return Err(format!(
            "{call:?}: {got:?}, live {live_number}, {:?}",
            sides.model.words
        ));
    }
    coverage.meet("recorded calls");
    Ok(())
}

pub fn replayed(coverage: &mut Coverage) -> Result<(), String> {
    let lines = fs::read_to_string(RECORDED).map_err(|e| format!("{RECORDED}: {e}"))?;
    let mut sides = Sides::over(Lent::default());
    for (k, text) in lines.lines().enumerate() {
        replay_line(text, &mut sides, coverage)
            .map_err(|found| format!("recorded: line {}: {text}\n{found}", k + 1))?;
    }
    Ok(())
}
