//! The command as it is run: what it prints, what it stores, and what it says where it cannot.

mod kept;
mod morning;
mod range;
mod read;
mod readme;
mod running;
mod scripts;
mod trouble;
