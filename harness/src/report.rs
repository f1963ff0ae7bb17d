//! The report of a difference, complete enough to repeat it.

use std::fmt::{self, Write};

/// A difference between the library and the model.
pub struct Difference {
    text: String,
}

pub type Compared = Result<(), Difference>;

impl Difference {
    pub fn new(what: &str) -> Difference {
        Difference {
            text: format!("difference: {what}\n"),
        }
    }

    pub fn line(mut self, name: &str, value: impl fmt::Display) -> Difference {
        let _ = writeln!(self.text, "{name}: {value}");
        self
    }

    pub fn bytes(self, name: &str, bytes: &[u8]) -> Difference {
        let hex = bytes.iter().fold(String::new(), |mut hex, byte| {
            let _ = write!(hex, "{byte:02x}");
            hex
        });
        self.line(name, format_args!("{} bytes {hex}", bytes.len()))
    }

    /// A result word, whole and taken apart.
    pub fn word(self, name: &str, word: u64) -> Difference {
        let outcome = cook::Outcome::from_word(word);
        self.line(name, format_args!("{word:#018x} {outcome:?}"))
    }

    /// The same buffer on both sides, or one line if the sides agree.
    pub fn sides(self, name: &str, library: &[u8], model: &[u8]) -> Difference {
        if library == model {
            return self.bytes(&format!("{name} after, both"), library);
        }
        let place = library.iter().zip(model).position(|(a, b)| a != b);
        self.line(
            &format!("{name} differs first at"),
            format_args!("{place:?}"),
        )
        .bytes(&format!("{name} after, library"), library)
        .bytes(&format!("{name} after, model"), model)
    }
}

impl fmt::Display for Difference {
    fn fmt(&self, out: &mut fmt::Formatter<'_>) -> fmt::Result {
        out.write_str(&self.text)
    }
}
