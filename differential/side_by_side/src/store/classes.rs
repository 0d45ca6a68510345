//! Tables of reason classes: document 02's rules of a table and of its text, and openings with texts of every kind.
use super::call::Call;
use super::lent::{any_opening, rubbish_for, SMALL};
use super::memory::*;
use super::sides::Sides;
use crate::coverage::Coverage;
use crate::mutant;
use library::classes::ClassText;
use library::store::{Lent, Opening};
use random::Random;
use reference::reasons::BUILT_IN;

/// The table that a record holds.
pub fn table(m: &Lent) -> [u64; 24] {
    let mut table = [0; 24];
    table.copy_from_slice(&m.words[CLASSES..CLASSES + 24]);
    table
}

/// Whether a class from 0 to the largest used is missing.
pub fn has_gap(table: &[u64; 24]) -> bool {
    let largest = table.iter().copied().max().unwrap_or(0);
    (0..largest).any(|class| !table.contains(&class)) && !mutant::is("a-gap-in-the-classes")
}

/// Right-justified with spaces, no leading zeros.
fn number(field: &[u8]) -> Option<u64> {
    let digits: Vec<u8> = field.iter().copied().skip_while(|b| *b == b' ').collect();
    if digits.is_empty() || !digits.iter().all(u8::is_ascii_digit) {
        return None;
    }
    if digits[0] == b'0' && digits.len() > 1 && !mutant::is("a-leading-zero") {
        return None;
    }
    String::from_utf8(digits).ok()?.parse().ok()
}

/// The table that a text holds: '24 lines, each a code in columns 1 to 4 and a class in columns 5 to 8 ..'.
pub fn table_of(text: &[u8]) -> Option<[u64; 24]> {
    let lines: Vec<&[u8]> = text.split_inclusive(|b| *b == b'\n').collect();
    if lines.len() != 24 {
        return None;
    }
    let mut table = [0; 24];
    for (code, line) in lines.iter().enumerate() {
        if line.len() != 9 || line[8] != b'\n' || number(&line[..4])? != code as u64 {
            return None;
        }
        table[code] = number(&line[4..8])?;
    }
    (table.iter().all(|class| *class <= 9) && !has_gap(&table)).then_some(table)
}

/// A table that the rules allow: its classes in any order.
pub fn any_table(random: &mut Random) -> [u8; 24] {
    if random.one_in(3) {
        return BUILT_IN;
    }
    let used = random.within(1, 10);
    let mut table = [0; 24];
    for (code, class) in table.iter_mut().enumerate() {
        *class = if code < used { code } else { random.below(used) } as u8;
    }
    for code in (1..24).rev() {
        table.swap(code, random.below(code + 1));
    }
    table
}

/// Texts that break one rule, under its name.
pub const RULES: [&str; 12] = [
    "no text",
    "a line less",
    "a line more",
    "a byte less",
    "a byte more",
    "codes out of order",
    "a class of 10",
    "a class missing",
    "class 0 missing",
    "a leading zero",
    "left-justified",
    "another line end",
];

fn with_rule_broken(rule: &str, random: &mut Random) -> Vec<u8> {
    let mut table = any_table(random);
    let good = ClassText::of(&table).bytes().to_vec();
    let line = 9 * random.below(24);
    let mut text = good.clone();
    match rule {
        "no text" => text.clear(),
        "a line less" => drop(text.drain(line..line + 9)),
        "a line more" => text.extend(format!("{:4}{:4}\n", 24, 0).bytes()),
        "a byte less" => drop(text.remove(random.below(216))),
        "a byte more" => text.insert(random.below(217), b' '),
        "codes out of order" => {
            let other = (line + 9 * random.within(1, 23)) % 216;
            for k in 0..4 {
                text.swap(line + k, other + k);
            }
        }
        "a class of 10" => text[line + 6..line + 8].copy_from_slice(b"10"),
        "a class missing" => {
            table = [0; 24];
            table[line / 9] = random.within(2, 9) as u8;
            return ClassText::of(&table).bytes().to_vec();
        }
        "class 0 missing" => return ClassText::of(&[1; 24]).bytes().to_vec(),
        "a leading zero" => text[line + [2, 6][random.below(2)].min(if line >= 90 { 1 } else { 6 })] = b'0',
        "left-justified" => text.swap(line + 4, line + 7),
        _ => text[line + 8] = [b'\r', b' ', 0][random.below(3)],
    }
    text
}

/// A text that is mostly that of a table.
pub fn any_text(random: &mut Random) -> ClassText {
    if random.one_in(8) {
        return ClassText::new(&with_rule_broken(RULES[random.below(RULES.len())], random));
    }
    ClassText::of(&any_table(random))
}

fn opened_with(text: &[u8], o: Opening, random: &mut Random, coverage: &mut Coverage) -> Result<u64, String> {
    let class_text = ClassText::new(text);
    let mut sides = Sides::over(rubbish_for(o, random.below(3), random));
    let returned = sides.step(&Call::Open(Opening { class_text, ..o }), coverage)?;
    Ok(returned.value)
}

/// Each rule broken alone, over memory and shapes that opening takes: 17, and nothing written.
pub fn each_rule_broken(seed: u64, each: u64, coverage: &mut Coverage) -> Result<(), String> {
    let mut random = Random::new(seed);
    for rule in RULES {
        for _ in 0..each {
            let text = with_rule_broken(rule, &mut random);
            let o = any_opening(SMALL, &mut random);
            let value = opened_with(&text, o, &mut random, coverage)?;
            if value != 17 {
                return Err(format!("{rule}: {value} for {:?}", String::from_utf8_lossy(&text)));
            }
            coverage.meet(rule);
        }
    }
    Ok(())
}

/// Each byte of a good text changed to every other one.
pub fn each_byte_changed(seed: u64, coverage: &mut Coverage) -> Result<(), String> {
    let mut random = Random::new(seed);
    let o = Opening::with_flags([1, 1, 1, 1], 4);
    if o.class_text != ClassText::of(&BUILT_IN) {
        return Err(format!("the built-in text is {:?}", o.class_text));
    }
    for table in [BUILT_IN, any_table(&mut random)] {
        let good = ClassText::of(&table).bytes().to_vec();
        for at in 0..good.len() {
            for byte in 0..=255 {
                let mut text = good.clone();
                text[at] = byte;
                let value = opened_with(&text, o, &mut random, coverage)?;
                coverage.meet(if value == 0 {
                    "a byte changed, taken"
                } else {
                    "a byte changed, refused"
                });
            }
        }
    }
    Ok(())
}
