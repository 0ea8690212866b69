//! The pairs that Choose writes for one fault: again and again the best of those that stage 5 would take next.

use super::sequences::Taken;
use super::Stages;
use crate::circuit::Fault;

/// What pairs are compared by, the most important first and more being better: Nout(u), the bits specified in the
/// plain state at u, the smaller and the larger size of the two extras, then how low u and i are.
type Rank = [isize; 6];

/// A pair that stage 5 would take.
struct Candidate {
    index: usize,
    taken: Taken,
    rank: Rank,
}

impl Stages<'_> {
    /// Time and flip-flop index of at most k pairs, those chosen counting as taken; none for verdicts 1, 2 and 5.
    pub fn choices(&mut self, fault: Fault) -> Vec<(usize, usize)> {
        self.watched_choices(fault, |_, _| ())
    }

    /// For each place in the rank the number of pairs chosen that would not be the best alone without it.
    pub fn decided(&mut self, fault: Fault) -> [usize; 6] {
        let mut decided = [0; 6];
        self.watched_choices(fault, |best, others| {
            for (place, count) in decided.iter_mut().enumerate() {
                let is_as_good = |other: &Candidate| without(place, other.rank) >= without(place, best.rank);
                *count += others.iter().any(is_as_good) as usize;
            }
        });
        decided
    }

    /// The choices, each seen as it is made with the others that might be.
    fn watched_choices(&mut self, fault: Fault, mut see: impl FnMut(&Candidate, &[Candidate])) -> Vec<(usize, usize)> {
        let mut choices = Vec::new();
        let Some(implied) = self.implied(fault) else {
            return choices;
        };
        if implied.both_marked.or(implied.opposite_write).is_some() {
            return choices;
        }
        let mut candidates = self.candidates();
        while choices.len() < self.job.k && !candidates.is_empty() {
            let best = candidates.swap_remove(position_of_best(&candidates));
            see(&best, &candidates);
            candidates.retain(|candidate| !overlap(&candidate.taken, &best.taken));
            choices.push((best.taken.time, best.index));
        }
        choices
    }

    /// The pairs that stage 5 would take first.
    fn candidates(&mut self) -> Vec<Candidate> {
        let mut candidates = Vec::new();
        for u in 0..self.job.time_units {
            if u > 0 {
                self.plain_values_before(u);
            }
            for i in 0..self.job.circuit.flip_flops.len() {
                if !self.worth_trying(u, i) {
                    continue;
                }
                if let Some(taken) = self.would_take(&[], u, i) {
                    let rank = self.rank(&taken, i);
                    candidates.push(Candidate { index: i, taken, rank });
                }
            }
        }
        candidates
    }

    /// Largest Nout(u), smallest plain Nsv(u), largest smaller size, largest larger size, lowest u, lowest i.
    fn rank(&self, taken: &Taken, i: usize) -> Rank {
        let u = taken.time;
        let [zero, one] = [taken.extras[0].len() as isize, taken.extras[1].len() as isize];
        [self.nout[u] as isize, -(self.nsv(u) as isize), zero.min(one), zero.max(one), -(u as isize), -(i as isize)]
    }
}

fn position_of_best(candidates: &[Candidate]) -> usize {
    (0..candidates.len()).max_by_key(|&position| candidates[position].rank).expect("some candidate")
}

/// The rank with this place left out.
fn without(place: usize, mut rank: Rank) -> Rank {
    rank[place] = 0;
    rank
}

/// Some bit in the extras of one is given by the other at the same time.
fn overlap(one: &Taken, other: &Taken) -> bool {
    one.extras.iter().flatten().any(|&(j, _)| other.gives(one.time, j))
}
