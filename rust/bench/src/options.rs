//! The command line.

pub const HELP: &str = "\
usage: bench [--rounds N] [--members N] [--only TEXT]

  --rounds N    rounds for each row, 1 or more (15)
  --members N   only groups of so many members, 1 to 32 (1, 8 and 32)
  --only TEXT   only rows whose name has this in it";

const ROUNDS: usize = 15;
const SIZES: [u8; 3] = [1, 8, 32];

pub struct Options {
    pub rounds: usize,
    pub sizes: Vec<u8>,
    pub only: String,
}

impl Options {
    pub fn of(mut words: impl Iterator<Item = String>) -> Result<Options, String> {
        let mut options = Options {
            rounds: ROUNDS,
            sizes: SIZES.to_vec(),
            only: String::new(),
        };
        while let Some(option) = words.next() {
            let value = words.next().ok_or(format!("{option}: no value"))?;
            options.take(&option, value)?;
        }
        Ok(options)
    }

    fn take(&mut self, option: &str, value: String) -> Result<(), String> {
        match option {
            "--rounds" => self.rounds = number(option, &value, 1, 1_000_000)?,
            "--members" => self.sizes = vec![number(option, &value, 1, 32)? as u8],
            "--only" => self.only = value,
            _ => return Err(format!("{option}: no such option")),
        }
        Ok(())
    }
}

fn number(option: &str, value: &str, least: usize, most: usize) -> Result<usize, String> {
    let number = value.parse().ok();
    number
        .filter(|number| (least..=most).contains(number))
        .ok_or(format!(
            "{option}: expected {least} to {most}, found {value}"
        ))
}

#[cfg(test)]
mod tests {
    use super::*;

    fn parsed(line: &str) -> Result<Options, String> {
        Options::of(line.split_whitespace().map(String::from))
    }

    #[test]
    fn without_words_all_is_measured() {
        let options = parsed("").unwrap();
        assert_eq!((options.rounds, options.sizes), (15, vec![1, 8, 32]));
        assert_eq!(options.only, "");
    }

    #[test]
    fn each_option_is_taken() {
        let options = parsed("--rounds 3 --members 32 --only sweep").unwrap();
        assert_eq!((options.rounds, options.sizes), (3, vec![32]));
        assert_eq!(options.only, "sweep");
    }

    #[test]
    fn what_cannot_be_is_named() {
        let why = |line| parsed(line).err().unwrap();
        assert_eq!(why("--rounds"), "--rounds: no value");
        assert_eq!(
            why("--rounds 0"),
            "--rounds: expected 1 to 1000000, found 0"
        );
        assert_eq!(why("--members 33"), "--members: expected 1 to 32, found 33");
        assert_eq!(why("--fast yes"), "--fast: no such option");
    }
}
