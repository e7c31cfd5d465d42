//! Why the command stopped.

use std::io;

#[derive(Debug)]
pub enum Failure {
    /// What is wrong with the input, in words.
    Input(String),
    /// What an event wrote is not in the journal, as far as is known.
    Journal(io::Error),
    Output(io::Error),
}

impl From<io::Error> for Failure {
    fn from(error: io::Error) -> Failure {
        Failure::Output(error)
    }
}
