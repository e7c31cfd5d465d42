//! Counts of what the readers of journals were given, and of what they said.

use std::fmt;

use super::damage::Damage;
use super::refused::Cause;

#[derive(Clone, Default)]
pub struct Tally {
    pub journals: u64,
    pub files: u64,
    /// Batches taken on in all files, and those of them that leave slots over.
    pub batches: u64,
    pub leaving_slots: u64,
    /// Files found whole, torn and refused, by what was done to them.
    whole: [u64; Damage::ALL.len()],
    torn: [u64; Damage::ALL.len()],
    refused: [u64; Damage::ALL.len()],
    causes: [u64; Cause::ALL.len()],
}

/// What a file was found to be.
#[derive(Clone, Copy, PartialEq, Eq, Debug)]
pub enum Found {
    Whole,
    Torn,
    Refused(Cause),
}

impl Tally {
    pub fn count(&mut self, damage: Damage, found: Found) {
        self.files += 1;
        let damage = damage as usize;
        match found {
            Found::Whole => self.whole[damage] += 1,
            Found::Torn => self.torn[damage] += 1,
            Found::Refused(cause) => {
                self.refused[damage] += 1;
                self.causes[cause as usize] += 1;
            }
        }
    }

    pub fn refused(&self, cause: Cause) -> u64 {
        self.causes[cause as usize]
    }

    /// All that was never met, in words.
    pub fn never(&self) -> Vec<String> {
        let mut never = Vec::new();
        for &damage in Damage::ALL {
            let at = damage as usize;
            if self.whole[at] + self.torn[at] + self.refused[at] == 0 {
                never.push(damage.label().into());
            }
        }
        for &cause in Cause::ALL {
            if self.refused(cause) == 0 {
                never.push(format!("refused: {}", cause.label()));
            }
        }
        if self.leaving_slots == 0 {
            never.push("read: an install that leaves slots over".into());
        }
        // What came to be another good file.
        for damage in [
            Damage::Byte,
            Damage::Swapped,
            Damage::Dropped,
            Damage::Foreign,
            Damage::Forged,
            Damage::Spoiled,
        ] {
            if self.whole[damage as usize] == 0 {
                never.push(format!("whole: {}", damage.label()));
            }
        }
        never
    }
}

impl fmt::Display for Tally {
    fn fmt(&self, f: &mut fmt::Formatter) -> fmt::Result {
        let (files, journals) = (self.files, self.journals);
        let (batches, leaving) = (self.batches, self.leaving_slots);
        writeln!(f, "{files:>10}  files made of {journals} journals")?;
        writeln!(f, "{batches:>10}  batches read in them")?;
        writeln!(f, "{leaving:>10}  of them installs that leave slots over")?;
        writeln!(f, "\n     whole      torn   refused")?;
        for &damage in Damage::ALL {
            let at = damage as usize;
            let (whole, torn, refused) = (self.whole[at], self.torn[at], self.refused[at]);
            writeln!(f, "{whole:>10}{torn:>10}{refused:>10}  {}", damage.label())?;
        }
        writeln!(f, "\nRefused")?;
        for &cause in Cause::ALL {
            writeln!(f, "{:>10}  {}", self.refused(cause), cause.label())?;
        }
        Ok(())
    }
}
