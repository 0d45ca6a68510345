//! Reason codes and classes, in the place of the Rust's open label and attribute. A code carries its class in the table that the
//! store was opened with, so that the Rust converts labels by the same table.

/// Document 01's table.
pub const BUILT_IN: [u8; 24] = [0, 0, 0, 1, 1, 2, 2, 2, 3, 3, 4, 4, 5, 5, 5, 6, 6, 6, 7, 7, 8, 8, 9, 9];

#[derive(Clone, Copy, Debug, PartialEq)]
pub struct Code(pub u8, Class);

#[derive(Clone, Copy, Debug, Eq, Hash, PartialEq)]
pub struct Class(pub u8);

impl Code {
    /// A code with its class in a table; one above 23, which the Rust takes, has that of 23.
    pub fn of(code: usize, table: &[u8; 24]) -> Self {
        Code(code.min(255) as u8, Class(table[code.min(23)]))
    }
}

impl From<Code> for Class {
    fn from(code: Code) -> Self {
        code.1
    }
}
