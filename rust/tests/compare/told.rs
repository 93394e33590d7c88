//! What a call told, in the same words for both sides, and how often each answer was seen.

use crate::Difference;
use oracle::model::{self, Reason};
use pylonfrith::{PointIndex, Refusal, Step};
use std::collections::BTreeMap;

/// An answer in document 01's numbers.
#[derive(Clone, Copy, Debug, PartialEq)]
pub enum Told {
    Done,
    Count(u32),
    Removed { index: u32, area_bits: u64 },
    Finished,
    Refused { reason: u32, point: u32 },
}

impl Told {
    pub fn reason(self) -> u32 {
        match self {
            Told::Refused { reason, .. } => reason,
            _ => 0,
        }
    }
}

impl From<Refusal> for Told {
    fn from(refusal: Refusal) -> Told {
        let point = match refusal {
            Refusal::OffGrid(PointIndex(point)) => point,
            _ => 0,
        };
        Told::Refused {
            reason: refusal.number(),
            point,
        }
    }
}

impl From<Reason> for Told {
    fn from(reason: Reason) -> Told {
        let point = match reason {
            Reason::OffGrid(point) => point as u32,
            _ => 0,
        };
        Told::Refused {
            reason: reason.number(),
            point,
        }
    }
}

impl From<u32> for Told {
    fn from(count: u32) -> Told {
        Told::Count(count)
    }
}

impl From<usize> for Told {
    fn from(count: usize) -> Told {
        Told::Count(count as u32)
    }
}

impl From<()> for Told {
    fn from(_: ()) -> Told {
        Told::Done
    }
}

impl From<Step> for Told {
    fn from(step: Step) -> Told {
        match step {
            Step::Removed { index, area } => Told::Removed {
                index: index.0,
                area_bits: area.to_bits(),
            },
            Step::Finished => Told::Finished,
        }
    }
}

impl From<model::Step> for Told {
    fn from(step: model::Step) -> Told {
        match step {
            model::Step::Removed { index, area } => Told::Removed {
                index: index as u32,
                area_bits: area.to_bits(),
            },
            model::Step::Finished => Told::Finished,
        }
    }
}

pub fn told<T: Into<Told>, E: Into<Told>>(answer: Result<T, E>) -> Told {
    answer.map_or_else(Into::into, Into::into)
}

/// The reasons that a call has, in the order of the table.
const REASONS: [(&str, &[u32]); 11] = [
    ("simplify_vw_idx", &[1, 2, 3, 4, 7, 8]),
    ("simplify_vw", &[1, 2, 3, 4, 7, 8]),
    ("simplify_vw_preserve", &[1, 2, 3, 4, 7, 8]),
    ("simplify_vw_preserve_polygon", &[1, 2, 3, 4, 5, 6, 7, 8]),
    ("remove_repeated_points", &[1, 2, 3, 7]),
    ("remove_repeated_points_anywhere", &[1, 2, 3, 7]),
    ("clear", &[8]),
    ("open", &[1, 2, 3, 4, 8, 9, 10]),
    ("step", &[8, 9, 11]),
    ("read", &[7, 8, 9, 11]),
    ("close", &[8, 9, 11]),
];

/// How often each call gave each reason; 0 stands for accepted.
#[derive(Default)]
pub struct Seen(BTreeMap<(&'static str, u32), usize>);

impl Seen {
    pub fn note(&mut self, call: &'static str, answer: Told) {
        *self.0.entry((call, answer.reason())).or_default() += 1;
    }

    fn count(&self, call: &'static str, reason: u32) -> usize {
        self.0.get(&(call, reason)).copied().unwrap_or(0)
    }

    pub fn print(&self) {
        for (call, reasons) in REASONS {
            let refused: Vec<String> = reasons
                .iter()
                .map(|&reason| format!("{reason}: {}", self.count(call, reason)))
                .collect();
            let accepted = self.count(call, 0);
            println!(
                "{call:32} accepted {accepted:8}   refused {}",
                refused.join(", ")
            );
        }
    }

    pub fn is_every_reason_seen(&self) -> Result<(), Difference> {
        for (call, reasons) in REASONS {
            for &reason in reasons.iter().chain(&[0]) {
                if self.count(call, reason) == 0 {
                    return Err(format!("{call} was never seen to answer with {reason}"));
                }
            }
        }
        Ok(())
    }
}
