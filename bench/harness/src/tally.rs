//! How often a function came to what.

use std::fmt;

/// The inputs of a function, and how many of them were refused with each number; with 0 those that were not refused.
pub struct Tally {
    name: &'static str,
    done: &'static str,
    outcomes: [u32; 17],
}

impl Tally {
    /// No inputs yet of the function of a name, and what it has done where it is not refused.
    pub fn new(name: &'static str, done: &'static str) -> Tally {
        Tally {
            name,
            done,
            outcomes: [0; 17],
        }
    }

    /// Counts one input, refused with a number or not.
    pub fn add(&mut self, refusal: u32) {
        self.outcomes[refusal as usize] += 1;
    }
}

impl fmt::Display for Tally {
    fn fmt(&self, f: &mut fmt::Formatter<'_>) -> fmt::Result {
        let inputs: u32 = self.outcomes.iter().sum();
        write!(
            f,
            "{}: {inputs} inputs, {} {}",
            self.name, self.outcomes[0], self.done
        )?;
        let refused = (1..).zip(&self.outcomes[1..]);
        let mut between = ", refused ";
        for (number, times) in refused.filter(|(_, times)| **times > 0) {
            write!(f, "{between}{number}: {times}")?;
            between = ", ";
        }
        Ok(())
    }
}
