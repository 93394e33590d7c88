//! Whether an answer of the given text, which leaves the order among equal areas open, is one that document 01's
//! rule gives for some choice among the tied candidates.

use crate::model::{crosses, least_candidates, remove_preserving, Minima, Place, Tolerance};
use std::collections::{BTreeSet, HashSet};

/// The plain rule has no minima and looks for no crossing.
#[derive(Clone, Copy)]
pub enum Rule {
    Plain,
    Preserving(Minima),
}

#[derive(Debug, PartialEq, Eq)]
pub enum Verdict {
    /// Some choice among tied candidates gives the answer.
    Explained,
    /// No choice does.
    Unexplained,
    /// The search grew too large.
    NotSearched,
}

const MOST_STATES: usize = 20_000;

struct Search<'a> {
    points: &'a [Place],
    tolerance: Tolerance,
    rule: Rule,
    wanted: &'a [Vec<usize>],
    seen: HashSet<(usize, Vec<Vec<usize>>, BTreeSet<usize>)>,
}

/// `wanted` is the kept list of each ring.
pub fn explain(
    points: &[Place],
    rings: Vec<Vec<usize>>,
    tolerance: Tolerance,
    rule: Rule,
    wanted: &[Vec<usize>],
) -> Verdict {
    let mut search = Search {
        points,
        tolerance,
        rule,
        wanted,
        seen: HashSet::new(),
    };
    let found = search.reaches(0, rings, BTreeSet::new());
    if found {
        Verdict::Explained
    } else if search.seen.len() >= MOST_STATES {
        Verdict::NotSearched
    } else {
        Verdict::Unexplained
    }
}

impl Search<'_> {
    /// Whether the wanted answer can be reached with ring `ring` in work.
    fn reaches(&mut self, ring: usize, rings: Vec<Vec<usize>>, demoted: BTreeSet<usize>) -> bool {
        if ring == rings.len() {
            return rings == self.wanted;
        }
        if self.seen.len() >= MOST_STATES
            || !self.seen.insert((ring, rings.clone(), demoted.clone()))
        {
            return false;
        }
        let kept = &rings[ring];
        let positions = self.choices(kept, &demoted);
        if positions.is_empty() {
            return self.finish(ring, rings);
        }
        for at in positions {
            let crossed = matches!(self.rule, Rule::Preserving(_))
                && crosses(self.points, &rings, kept[at - 1], kept[at + 1]);
            let at_second_minimum =
                matches!(self.rule, Rule::Preserving(minima) if kept.len() <= minima.second);
            if crossed && at_second_minimum {
                if self.finish(ring, rings.clone()) {
                    return true;
                }
            } else if !self.wanted[ring].contains(&kept[at]) {
                let (mut rings, mut demoted) = (rings.clone(), demoted.clone());
                remove_preserving(&mut rings[ring], &mut demoted, at, crossed);
                if self.reaches(ring, rings, demoted) {
                    return true;
                }
            }
        }
        false
    }

    /// The positions of the tied candidates of a ring; none if the ring stops before one is tried.
    fn choices(&self, kept: &[usize], demoted: &BTreeSet<usize>) -> Vec<usize> {
        let stops = match self.rule {
            Rule::Plain => false,
            Rule::Preserving(minima) => {
                !self.tolerance.is_above_zero() || kept.len() < 3 || kept.len() <= minima.first
            }
        };
        match least_candidates(self.points, kept, demoted) {
            Some((area, positions)) if !stops && !area.is_above(self.tolerance) => positions,
            _ => Vec::new(),
        }
    }

    fn finish(&mut self, ring: usize, rings: Vec<Vec<usize>>) -> bool {
        rings[ring] == self.wanted[ring] && self.reaches(ring + 1, rings, BTreeSet::new())
    }
}
