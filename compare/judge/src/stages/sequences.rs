//! Stages 5 and 6 for one fault: the sequences of the taken plan pairs, then the starting states.

use super::{Record, Stages};
use crate::simulation::{opposes, X};

/// A bit that an implication gives: flip-flop index and value.
type Bit = (usize, u8);

/// A pair that is taken: its time and its extras for 0 and 1.
pub struct Taken {
    pub(super) time: usize,
    pub(super) extras: [Vec<Bit>; 2],
}

impl Taken {
    /// One of the two extras gives this bit at that time.
    pub(super) fn gives(&self, u: usize, j: usize) -> bool {
        self.time == u && self.extras.iter().flatten().any(|&(given, _)| given == j)
    }
}

impl Stages<'_> {
    /// Stage 5: the plan pairs taken, at most k.
    pub(super) fn taken_pairs(&mut self) -> Vec<Taken> {
        let mut taken: Vec<Taken> = Vec::new();
        for &(u, i) in &self.job.plan {
            if taken.len() == self.job.k {
                break;
            }
            if !self.worth_trying(u, i) || is_given(&taken, u, i) {
                continue;
            }
            if u > 0 {
                self.plain_values_before(u);
            }
            taken.extend(self.would_take(&taken, u, i));
        }
        taken
    }

    /// The pair names a bit, unknown in the state list, with unknown outputs from u − 1 on.
    pub(super) fn worth_trying(&self, u: usize, i: usize) -> bool {
        let bits = self.job.circuit.flip_flops.len();
        let names_a_bit = u < self.job.time_units && i < bits;
        names_a_bit && self.list[u * bits + i] == X && (u == 0 || self.nout[u - 1] > 0)
    }

    /// A pair worth trying, as it is taken after others, given the plain values of unit u − 1; none if a bit in its
    /// two extras is specified in the state list or given already.
    pub(super) fn would_take(&mut self, taken: &[Taken], u: usize, i: usize) -> Option<Taken> {
        let extras =
            if u == 0 { [0, 1].map(|value| vec![(i, value)]) } else { [0, 1].map(|value| self.extra(u, i, value)) };
        let bits = self.job.circuit.flip_flops.len();
        let overlaps = extras.iter().flatten().any(|&(j, _)| self.list[u * bits + j] != X || is_given(taken, u, j));
        (!overlaps).then_some(Taken { time: u, extras })
    }

    /// Every (j, β), unknown in the plain state at u, whose pin shows β; stages 3 and 4 have left no mark on a bit
    /// still unknown.
    fn extra(&mut self, u: usize, i: usize, value: u8) -> Vec<Bit> {
        let marked = self.marks(u, i, value);
        debug_assert!(!marked);
        let flip_flops = &self.job.circuit.flip_flops;
        let shown = |j: usize| self.trials[value as usize][flip_flops[j].pin_line];
        let is_unknown = |j: usize| self.states[u * flip_flops.len() + j] == X;
        (0..flip_flops.len()).filter(|&j| is_unknown(j) && shown(j) != X).map(|j| (j, shown(j))).collect()
    }

    /// Runs the sequences of the taken pairs and counts how they end.
    pub(super) fn sequences(&mut self, taken: &[Taken]) -> Record {
        let mut record = Record { m: taken.len() as u8, ..Record::default() };
        for sequence in 0..1usize << taken.len() {
            match self.end_of_sequence(taken, sequence) {
                End::Differs => record.differing += 1,
                End::Clashes => record.clashing += 1,
                End::Survives => record.surviving += 1,
            }
        }
        record
    }

    /// Simulates one sequence from unit 0; its own list is the state list with the extras of its values.
    fn end_of_sequence(&mut self, taken: &[Taken], sequence: usize) -> End {
        self.state.fill(X);
        for u in 0..self.job.time_units {
            if !self.add_own_list(taken, sequence, u) {
                return End::Clashes;
            }
            self.simulate(u);
            if self.differs(u) {
                return End::Differs;
            }
            self.step();
        }
        End::Survives
    }

    /// Adds the sequence's own list at u to the state; whether they do not clash.
    fn add_own_list(&mut self, taken: &[Taken], sequence: usize, u: usize) -> bool {
        let bits = self.job.circuit.flip_flops.len();
        self.own_list.copy_from_slice(&self.list[u * bits..][..bits]);
        for (t, pair) in taken.iter().enumerate().filter(|(_, pair)| pair.time == u) {
            for &(j, value) in &pair.extras[sequence >> t & 1] {
                self.own_list[j] = value;
            }
        }
        for (bit, &own) in self.state.iter_mut().zip(&self.own_list) {
            if opposes(*bit, own) {
                return false;
            }
            if own != X {
                *bit = own;
            }
        }
        true
    }

    /// Stage 6: the number of the lowest starting state that never differs.
    pub(super) fn start_that_never_differs(&mut self) -> Option<u16> {
        let starts = 1u32 << self.job.circuit.flip_flops.len();
        (0..starts).find(|&start| !self.start_differs(start)).map(|start| start as u16)
    }

    fn start_differs(&mut self, start: u32) -> bool {
        for (i, bit) in self.state.iter_mut().enumerate() {
            *bit = (start >> i & 1) as u8;
        }
        for u in 0..self.job.time_units {
            self.simulate(u);
            if self.differs(u) {
                return true;
            }
            self.step();
        }
        false
    }
}

/// How a sequence ends.
enum End {
    Differs,
    Clashes,
    Survives,
}

/// The bit is in an extra of a taken pair at that time.
fn is_given(taken: &[Taken], u: usize, j: usize) -> bool {
    taken.iter().any(|pair| pair.gives(u, j))
}
