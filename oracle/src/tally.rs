//! The count of inputs and differences of one service.

/// How many differences are printed with their inputs.
const SHOWN: u64 = 5;

/// What a comparison has seen so far.
pub struct Tally {
    name: &'static str,
    inputs: u64,
    differences: u64,
    note: String,
}

impl Tally {
    /// Nothing seen yet.
    pub fn new(name: &'static str) -> Self {
        Self {
            name,
            inputs: 0,
            differences: 0,
            note: String::new(),
        }
    }

    /// One input more; `describe` tells it where the two sides differ.
    #[inline]
    pub fn judge(&mut self, same: bool, describe: impl FnOnce() -> String) {
        self.inputs += 1;
        if !same {
            self.differences += 1;
            if self.differences <= SHOWN {
                println!("{}: difference: {}", self.name, describe());
            }
        }
    }

    /// What else is worth knowing of the inputs.
    pub fn note(&mut self, text: String) {
        self.note = text;
    }

    /// Prints the line of the service and tells whether there was no difference.
    pub fn report(self) -> bool {
        println!(
            "{}: {} inputs, {} differences",
            self.name, self.inputs, self.differences
        );
        if !self.note.is_empty() {
            println!("  {}", self.note);
        }
        self.differences == 0
    }
}

/// Patterns in hexadecimal, as the line form has them.
pub fn hex(patterns: impl IntoIterator<Item = u64>) -> String {
    let words: Vec<String> = patterns.into_iter().map(|p| format!("{p:016X}")).collect();
    words.join(",")
}
