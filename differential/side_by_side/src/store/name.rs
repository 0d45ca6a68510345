//! The library's name: what it is, the version, the requested changes that it has, the port's source and commit, the target.
use crate::coverage::Coverage;

const NAME: &str = include_str!("../../../../examples/c/store_name.stdout");
const UNTOUCHED: u8 = 0xa5;
const UNTOLD: u64 = 0xa5a5;

pub const KINDS: [&str; 2] = ["the name", "refused with 3"];

/// A slice of each length up to twice the text's: the text at the front and the rest untouched, or 3 and nothing written.
pub fn of_every_length(coverage: &mut Coverage) -> Result<(), String> {
    let name = NAME.trim_end_matches('\n').as_bytes();
    for n in 0..=2 * name.len() {
        let mut out = vec![UNTOUCHED; n];
        let mut length = UNTOLD;
        let value = library::store::name(&mut out, &mut length);
        let mut owed = (3, vec![UNTOUCHED; n], UNTOLD);
        if n >= name.len() {
            owed.0 = 0;
            owed.1[..name.len()].copy_from_slice(name);
            owed.2 = name.len() as u64;
        }
        if (value, &out, length) != (owed.0, &owed.1, owed.2) {
            return Err(format!(
                "the name in {n} bytes: {value}, {length}, {}",
                String::from_utf8_lossy(&out)
            ));
        }
        coverage.meet(if value == 0 { KINDS[0] } else { KINDS[1] });
    }
    Ok(())
}
