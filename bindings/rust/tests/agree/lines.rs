//! What calls said and left, a line each.
use std::fmt::Display;

/// The lines.
#[derive(Default)]
pub struct Lines(pub String);

impl Lines {
    /// A list of numbers.
    pub fn list(&mut self, name: &str, all: impl IntoIterator<Item = impl Display>) {
        self.0 += name;
        for number in all {
            self.0 += &format!(" {number}");
        }
        self.0.push('\n');
    }

    /// What a call said: three numbers, or two and a zero.
    pub fn said(&mut self, name: &str, number: u32, a: usize, b: usize) {
        self.list(name, [number as usize, a, b]);
    }

    /// A slot or a record that has no frame.
    pub fn nothing(&mut self, name: &str) {
        self.list(name, [0; 0]);
    }
}
