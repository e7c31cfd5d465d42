//! What a coordinator must offer for its reader of journals to be tried, and `read_journals!`, which
//! gives it to a crate that has the names of the binding.

use crate::coordinator::Coordinator;

pub trait Reads {
    type Group: Coordinator;

    const HEADING: [u8; 4];

    fn frame(records: &[u8], out: &mut [u8]) -> Option<usize>;
    fn read(bytes: &[u8], tick: u32) -> Reading<'_, Self::Group>;
}

pub struct Reading<'a, G> {
    pub group: G,
    pub end: usize,
    pub verdict: Verdict<'a>,
}

#[derive(Clone, Copy, PartialEq, Eq, Debug)]
pub enum Verdict<'a> {
    Whole,
    Torn { tail: &'a [u8] },
    Refused { offset: usize },
}

/// Implements `Reads` for `$api::Group`, by the names of the binding.
macro_rules! read_journals {
    ($api:ident) => {
        impl $crate::journal::Reads for $api::Group {
            type Group = $api::Group;

            const HEADING: [u8; 4] = $api::journal::HEADING;

            fn frame(records: &[u8], out: &mut [u8]) -> Option<usize> {
                $api::journal::frame(records, out)
            }

            fn read(bytes: &[u8], tick: u32) -> $crate::journal::Reading<'_, Self> {
                let reading = $api::journal::read(bytes, tick);
                $crate::journal::Reading {
                    group: reading.group,
                    end: reading.end,
                    verdict: match reading.verdict {
                        $api::journal::Verdict::Whole => $crate::journal::Verdict::Whole,
                        $api::journal::Verdict::Torn { tail } => {
                            $crate::journal::Verdict::Torn { tail }
                        }
                        $api::journal::Verdict::Refused { offset } => {
                            $crate::journal::Verdict::Refused { offset }
                        }
                    },
                }
            }
        }
    };
}

pub(crate) use read_journals;
