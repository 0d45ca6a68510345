//! The text of a table of reason classes, as an opening carries it: of any length up to `LONGEST`.
use std::fmt;

/// That of document 01's table.
const BUILT_IN: &[u8] = b"   0   0
   1   0
   2   0
   3   1
   4   1
   5   2
   6   2
   7   2
   8   3
   9   3
  10   4
  11   4
  12   5
  13   5
  14   5
  15   6
  16   6
  17   6
  18   7
  19   7
  20   8
  21   8
  22   9
  23   9
";

pub const LONGEST: usize = 240;

#[derive(Clone, Copy, PartialEq)]
pub struct ClassText {
    bytes: [u8; LONGEST],
    length: usize,
}

impl ClassText {
    pub fn new(text: &[u8]) -> Self {
        let mut bytes = [0; LONGEST];
        bytes[..text.len()].copy_from_slice(text);
        ClassText {
            bytes,
            length: text.len(),
        }
    }

    /// The text of a table.
    pub fn of(table: &[u8; 24]) -> Self {
        let lines = table
            .iter()
            .enumerate()
            .map(|(code, class)| format!("{code:4}{class:4}\n"));
        Self::new(lines.collect::<String>().as_bytes())
    }

    pub fn bytes(&self) -> &[u8] {
        &self.bytes[..self.length]
    }
}

impl Default for ClassText {
    fn default() -> Self {
        Self::new(BUILT_IN)
    }
}

impl fmt::Debug for ClassText {
    fn fmt(&self, f: &mut fmt::Formatter<'_>) -> fmt::Result {
        write!(f, "{:?}", String::from_utf8_lossy(self.bytes()))
    }
}
