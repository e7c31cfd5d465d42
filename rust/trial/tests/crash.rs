//! The short trial of killed brokers in the gate, and brokers that keep their journal wrongly. The long
//! trial is a command (src/bin/crash.rs).

use std::env;
use std::fs;
use std::process;

use trial::crash::careless::Fault;
use trial::crash::{explore, Place, Plan, Tally};

const KILLS: u64 = if cfg!(debug_assertions) { 30 } else { 60 };
/// So many are enough to find any of the faults.
const KILLS_OF_CARELESS: u64 = 400;

fn killed(name: &str, arguments: &[&str], kills: u64) -> Result<Tally, String> {
    let folder = env::temp_dir().join(format!("pankvisolo-{name}-{}", process::id()));
    fs::create_dir_all(&folder).unwrap();
    let place = Place {
        program: env!("CARGO_BIN_EXE_crash").into(),
        arguments: arguments.iter().map(|&word| word.into()).collect(),
        folder: folder.clone(),
    };
    let tally = explore(&place, Plan { seed: 1, kills }, |_| ());
    fs::remove_dir_all(&folder).unwrap();
    tally
}

#[test]
fn brokers_are_killed_and_no_answer_is_lost() {
    let tally = killed("crashes", &["serve"], KILLS).unwrap_or_else(|what| panic!("{what}"));
    println!("{tally}");
    assert!(tally.kills >= KILLS && tally.answers > tally.kills);
}

#[test]
fn careless_brokers_are_found_out() {
    for fault in Fault::ALL {
        let name = fault.label();
        match killed(name, &["careless", name], KILLS_OF_CARELESS) {
            Ok(_) => panic!("{name} is not found out"),
            Err(what) => println!("{name}: {what}"),
        }
    }
}
