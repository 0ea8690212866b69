//! The six stages for one fault, in order; the first that gives a verdict ends the fault's work.
//! Stages 1 to 4 stand here, 5 and 6 in `sequences`, the pairs of Choose in `choices`.

mod choices;
mod sequences;

use crate::circuit::Fault;
use crate::implication::imply;
use crate::refusals::Job;
use crate::simulation::{next_state, opposes, response, simulate_unit, X};

/// The fields of a verdict record; those not named for a verdict are 0.
#[derive(Clone, Copy, Default, PartialEq, Debug)]
pub struct Record {
    pub verdict: u8,
    pub m: u8,
    pub time: u16,
    pub line: u16,
    pub differing: u16,
    pub clashing: u16,
    pub surviving: u16,
    pub start: u16,
}

/// What stages 3 and 4 find.
#[derive(Default)]
pub struct Implied {
    /// Time and flip-flop index of the first pair with both values marked.
    pub both_marked: Option<(usize, usize)>,
    /// Those of the first pair with a write against an opposite value.
    pub opposite_write: Option<(usize, usize)>,
    /// The number of pairs with one value marked.
    pub one_marked: usize,
}

/// What the stages of one fault share; the areas are used again for the next fault.
pub struct Stages<'a> {
    job: &'a Job<'a>,
    fault: Fault,
    /// The fault-free response, by time, then output.
    response: Vec<u8>,
    /// The faulty plain states, by time, then flip-flop.
    states: Vec<u8>,
    /// The state list of stage 4.
    list: Vec<u8>,
    /// Nout of each time unit.
    nout: Vec<usize>,
    values: Vec<u8>,
    /// The values of a unit in which 0, or 1, is tried.
    trials: [Vec<u8>; 2],
    /// The state at hand.
    state: Vec<u8>,
    /// A sequence's own list at one time unit.
    own_list: Vec<u8>,
}

impl<'a> Stages<'a> {
    /// Simulates the fault-free circuit, once for all faults.
    pub fn new(job: &'a Job<'a>) -> Self {
        let (lines, bits) = (job.circuit.line_count, job.circuit.flip_flops.len());
        Stages {
            job,
            fault: Fault::NONE,
            response: response(&job.circuit, Fault::NONE, job.test),
            states: vec![X; job.time_units * bits],
            list: vec![X; job.time_units * bits],
            nout: vec![0; job.time_units],
            values: vec![X; lines],
            trials: [vec![X; lines], vec![X; lines]],
            state: vec![X; bits],
            own_list: vec![X; bits],
        }
    }

    /// The record of one fault.
    pub fn grade(&mut self, fault: Fault) -> Record {
        self.fault = fault;
        if let Some((u, line)) = self.opposing_place() {
            return Record { verdict: 1, time: u as u16, line: line as u16, ..Record::default() };
        }
        if !self.something_unknown() {
            return Record { verdict: 5, ..Record::default() };
        }
        let implied = self.implications();
        if let Some((u, i)) = implied.both_marked.or(implied.opposite_write) {
            let line = self.job.circuit.flip_flops[i].line as u16;
            return Record { verdict: 2, time: u as u16, line, ..Record::default() };
        }
        let taken = self.taken_pairs();
        let mut record = self.sequences(&taken);
        if record.surviving == 0 {
            record.verdict = 3;
        } else if self.job.circuit.flip_flops.len() > self.job.k {
            record.verdict = 7;
        } else if let Some(start) = self.start_that_never_differs() {
            record.verdict = 6;
            record.start = start;
        } else {
            record.verdict = 4;
        }
        record
    }

    /// Whether stage 1 gives a verdict.
    pub fn stage_1_ends(&mut self, fault: Fault) -> bool {
        self.fault = fault;
        self.opposing_place().is_some()
    }

    /// Whether stages 1 and 2 give no verdict.
    pub fn reaches_stage_3(&mut self, fault: Fault) -> bool {
        !self.stage_1_ends(fault) && self.something_unknown()
    }

    /// What stages 3 and 4 find, if they are reached.
    pub fn implied(&mut self, fault: Fault) -> Option<Implied> {
        self.reaches_stage_3(fault).then(|| self.implications())
    }

    /// Stage 1: where plain responses oppose, lowest time unit first, in it lowest line.
    /// Leaves the faulty plain states, and Nout where no responses oppose.
    fn opposing_place(&mut self) -> Option<(usize, usize)> {
        let (outputs, bits) = (&self.job.circuit.outputs, self.job.circuit.flip_flops.len());
        self.state.fill(X);
        for u in 0..self.job.time_units {
            self.states[u * bits..][..bits].copy_from_slice(&self.state);
            self.simulate(u);
            self.nout[u] = 0;
            for (&line, &expected) in outputs.iter().zip(&self.response[u * outputs.len()..]) {
                let shown = self.values[line];
                if opposes(shown, expected) {
                    return Some((u, line));
                }
                self.nout[u] += (expected != X && shown == X) as usize;
            }
            self.step();
        }
        for u in (1..self.job.time_units).rev() {
            self.nout[u - 1] += self.nout[u];
        }
        None
    }

    /// Stage 2: some u has Nsv(u) and Nout(u) above 0.
    fn something_unknown(&self) -> bool {
        (0..self.job.time_units).any(|u| self.nout[u] > 0 && self.nsv(u) > 0)
    }

    /// Unknown bits of the plain state at u.
    fn nsv(&self, u: usize) -> usize {
        let bits = self.job.circuit.flip_flops.len();
        self.states[u * bits..][..bits].iter().filter(|&&bit| bit == X).count()
    }

    /// The bits that stage 3 tries at u, from 1.
    pub fn bits_tried(&self, u: usize) -> usize {
        if self.nout[u - 1] > 0 {
            self.nsv(u)
        } else {
            0
        }
    }

    /// Stages 3 and 4. Marks and extras are those of plain values, so the writes of stage 4 go into the
    /// state list in the same loop; their verdict waits until stage 3 has seen every pair.
    fn implications(&mut self) -> Implied {
        let bits = self.job.circuit.flip_flops.len();
        let mut implied = Implied::default();
        self.list.copy_from_slice(&self.states);
        for u in 1..self.job.time_units {
            if self.nout[u - 1] == 0 {
                break;
            }
            self.plain_values_before(u);
            for i in 0..bits {
                if self.states[u * bits + i] != X {
                    continue;
                }
                let marked = [self.marks(u, i, 0), self.marks(u, i, 1)];
                if marked[0] && marked[1] {
                    implied.both_marked = Some((u, i));
                    return implied;
                }
                if !marked[0] && !marked[1] {
                    continue;
                }
                implied.one_marked += 1;
                if implied.opposite_write.is_none() && !self.write_extra(u, marked[0] as u8) {
                    implied.opposite_write = Some((u, i));
                }
            }
        }
        implied
    }

    /// The faulty plain values of unit u − 1.
    fn plain_values_before(&mut self, u: usize) {
        let bits = self.job.circuit.flip_flops.len();
        self.state.copy_from_slice(&self.states[(u - 1) * bits..][..bits]);
        self.simulate(u - 1);
    }

    /// Whether this value of the bit is marked, given the plain values of unit u − 1; leaves what it implies.
    fn marks(&mut self, u: usize, i: usize, value: u8) -> bool {
        let circuit = &self.job.circuit;
        let trial = &mut self.trials[value as usize];
        trial.copy_from_slice(&self.values);
        trial[circuit.flip_flops[i].pin_line] = value;
        if imply(circuit, self.fault, trial).is_err() {
            return true;
        }
        let expected = &self.response[(u - 1) * circuit.outputs.len()..];
        circuit.outputs.iter().zip(expected).any(|(&line, &expected)| opposes(trial[line], expected))
    }

    /// Writes the extra of the value last tried into the state list; whether it met no opposite value.
    fn write_extra(&mut self, u: usize, value: u8) -> bool {
        let bits = self.job.circuit.flip_flops.len();
        for (j, flip_flop) in self.job.circuit.flip_flops.iter().enumerate() {
            let shown = self.trials[value as usize][flip_flop.pin_line];
            if shown == X || self.states[u * bits + j] != X {
                continue;
            }
            let old = &mut self.list[u * bits + j];
            if opposes(*old, shown) {
                return false;
            }
            *old = shown;
        }
        true
    }

    /// The values of unit u from the state at hand.
    fn simulate(&mut self, u: usize) {
        let inputs = self.job.circuit.inputs.len();
        let test = &self.job.test[u * inputs..][..inputs];
        simulate_unit(&self.job.circuit, self.fault, test, &self.state, &mut self.values);
    }

    /// The state at hand becomes the next one.
    fn step(&mut self) {
        next_state(&self.job.circuit, self.fault, &self.values, &mut self.state);
    }

    /// Some output opposes the fault-free response at u.
    fn differs(&self, u: usize) -> bool {
        let outputs = &self.job.circuit.outputs;
        let expected = &self.response[u * outputs.len()..];
        outputs.iter().zip(expected).any(|(&line, &expected)| opposes(self.values[line], expected))
    }
}
