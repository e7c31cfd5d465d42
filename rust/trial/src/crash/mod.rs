//! A broker that is killed. It is a process of its own that serves events through a store of the
//! binding, over a real file, and answers each on a pipe; it is stopped by SIGKILL at a random moment
//! and started again on the same file, hundreds of times. The clients and the assignor live on, here.
//!
//! After each kill: the file is a beginning of what had to be written, with every batch of which an
//! answer went out; both readers read from it the group after its last whole batch; and 01's ledger,
//! fed with what went out and nothing else, holds over the whole life of the journal. At times the
//! file loses some bytes that no sync had covered, as with the power.

mod broker;
pub mod careless;
mod life;
mod process;
mod tally;
mod wire;

use std::path::PathBuf;

use crate::random::Random;

pub use broker::serve;
pub use tally::Tally;

/// How a broker is started, and where its files may lie.
pub struct Place {
    /// The program and its first arguments; the journal's path and the tick of reading follow.
    pub program: PathBuf,
    pub arguments: Vec<String>,
    pub folder: PathBuf,
}

#[derive(Clone, Copy, Debug)]
pub struct Plan {
    pub seed: u64,
    /// Journals are begun until there were so many kills.
    pub kills: u64,
}

/// `progress` is shown the tally after each journal. The first thing that does not hold ends it, in
/// words.
pub fn explore(
    place: &Place,
    plan: Plan,
    mut progress: impl FnMut(&Tally),
) -> Result<Tally, String> {
    let mut tally = Tally::default();
    let mut index = 0;
    while tally.kills < plan.kills {
        let random = Random::part(plan.seed, index);
        life::lived(place, index, random, &mut tally).map_err(|what| {
            let (seed, kills) = (plan.seed, tally.kills);
            format!("seed {seed}, journal {index}, after {kills} kills: {what}")
        })?;
        progress(&tally);
        index += 1;
    }
    Ok(tally)
}
