//! The proved engine beside loops in Rust: first that all give the same answers, then the time of each.
//!
//! The engine simulates 64 faults at once and comes from the static archive `libexported.a`. The loops here
//! simulate one fault, with one byte a value: 0, 1, or 2 for X. One goes over the circuit records as they are lent,
//! as the engine must. Two go over a circuit that was decoded before, with the fault built in, and differ in how a
//! gate is evaluated, by a match on its kind or by a table. In all, every flip-flop starts at X.
//!
//! The circuits are random, and the same ones in every run. The timed faults are not detected in the whole
//! test, so that none may stop before the last unit.

use std::{hint::black_box, process::exit, time::Instant};

unsafe extern "C" {
    /// Bit j: fault j is detected, that is, at some unit some output shows the opposite of the response in `free`.
    /// 0 if the inputs are not a valid job.
    fn balithoomai_detected(circuit: *const u8, circuit_len: usize, test: *const u8, test_len: usize,
        faults: *const u8, faults_len: usize, free: *const u8, free_len: usize) -> u64;
}

const X: u8 = 2;
const UNITS: usize = 1000;
const ROUNDS: usize = 24; // each times the engine once and 8 of the 64 faults, so every fault is timed three times
const SMALL_CIRCUITS: usize = 3000;

// A line's value is kept at the place of its number. Lines are at most 4,096; three places follow them.
// There are as many places as a u16 has numbers, so that no index needs a check; the rest is never read.
const PLACES: usize = 65_536;
const ZERO: u16 = 4096; // always 0
const ONE: u16 = 4097; // always 1
const NOWHERE: u16 = 4098; // written, never read

/// A gate takes the values of four places and writes the result to its own place.
/// Unused pins read a constant that changes nothing: 1 for AND and NAND, 0 for the others.
#[derive(Clone)]
struct Gate {
    pins: [u16; 4],
    place: u16,
    kind: u8,
}

#[derive(Clone, Default)]
struct Circuit {
    inputs: Vec<u16>,
    flip_flops: Vec<[u16; 2]>, // its own place and the place that its pin reads
    gates: Vec<Gate>,          // in line order
    outputs: Vec<u16>,
}

/// A record of the fault list: line (low byte first), pin (0 is the line itself), stuck value.
type Fault = [u8; 4];

/// A gate's result by kind, then by four pin values of two bits each. Here too no index needs a check.
static TABLES: [[u8; 256]; 256] = {
    let (mut tables, mut kind) = ([[X; 256]; 256], 2);
    while kind < 10 {
        let mut index = 0;
        while index < 256 {
            let pins = [index & 3, index >> 2 & 3, index >> 4 & 3, index >> 6];
            let (mut zeros, mut ones, mut pin) = (0, 0, 0);
            while pin < 4 {
                zeros += (pins[pin] == 0) as usize;
                ones += (pins[pin] == 1) as usize;
                pin += 1;
            }
            let plain = match kind {
                4 | 5 if zeros > 0 => 0,
                4 | 5 if ones == 4 => 1,
                6 | 7 if ones > 0 => 1,
                6 | 7 if zeros == 4 => 0,
                2 | 3 | 8 | 9 if zeros + ones == 4 => ones % 2,
                _ => X as usize,
            };
            if plain < 2 { tables[kind][index] = (plain ^ kind & 1) as u8; } // odd kinds invert
            index += 1;
        }
        kind += 1;
    }
    tables
};

/// How a gate is evaluated.
trait Evaluate { fn gate(kind: u8, pins: [u8; 4]) -> u8; }

struct ByMatch;

impl Evaluate for ByMatch {
    #[inline(always)]
    fn gate(kind: u8, [a, b, c, d]: [u8; 4]) -> u8 {
        let most = a.max(b).max(c).max(d);
        let plain = match kind {
            4..=5 => if a.min(b).min(c).min(d) == 0 { 0 } else { most },
            6..=7 => if (a | b | c | d) & 1 == 1 { 1 } else { most },
            _ => if most == X { X } else { a ^ b ^ c ^ d },
        };
        if plain == X { X } else { plain ^ kind & 1 }
    }
}

struct ByTable;

impl Evaluate for ByTable {
    #[inline(always)]
    fn gate(kind: u8, [a, b, c, d]: [u8; 4]) -> u8 {
        TABLES[kind as usize][(a + 4 * b + 16 * (c + 4 * d)) as usize]
    }
}

impl Circuit {
    /// From circuit records, which must be valid.
    fn decode(bytes: &[u8]) -> Circuit {
        let mut circuit = Circuit::default();
        for (place, record) in (0..).zip(bytes.chunks_exact(12)) {
            let kind = record[0];
            let mut pins = [if kind == 4 || kind == 5 { ONE } else { ZERO }; 4];
            for p in 0..record[1] as usize {
                pins[p] = u16::from_le_bytes([record[4 + 2 * p], record[5 + 2 * p]]);
            }
            match kind {
                0 => circuit.inputs.push(place),
                1 => circuit.flip_flops.push([place, pins[0]]),
                _ => circuit.gates.push(Gate { pins, place, kind }),
            }
            circuit.outputs.extend((record[2] == 1).then_some(place));
        }
        circuit
    }

    /// Builds a fault in, so that the loop never asks for it. What writes a stuck line now writes nowhere, and the
    /// line keeps the value that it is given before the first unit. A stuck pin reads a constant.
    fn build_in(&mut self, [low, high, pin, value]: Fault, values: &mut [u8; PLACES]) {
        let line = u16::from_le_bytes([low, high]);
        let constant = if value == 0 { ZERO } else { ONE };
        if pin == 0 {
            let flip_flops = self.flip_flops.iter_mut().map(|[place, _]| place);
            let gates = self.gates.iter_mut().map(|gate| &mut gate.place);
            let written = self.inputs.iter_mut().chain(flip_flops).chain(gates);
            written.filter(|place| **place == line).for_each(|place| *place = NOWHERE);
            values[line as usize] = value;
        } else if let Some([_, read]) = self.flip_flops.iter_mut().find(|[place, _]| *place == line) {
            *read = constant;
        } else if let Some(gate) = self.gates.iter_mut().find(|gate| gate.place == line) {
            gate.pins[pin as usize - 1] = constant;
        }
    }

    /// The byte loop: the units of a test in turn, with at most one fault. After each, `ends` is asked, with the
    /// places of the outputs and all values, if the run ends here.
    #[inline(always)]
    fn run<E: Evaluate>(&self, test: &[u8], fault: Option<Fault>, mut ends: impl FnMut(&[u16], &[u8; PLACES]) -> bool) {
        let (mut circuit, mut values, mut state) = (self.clone(), [X; PLACES], vec![X; self.flip_flops.len()]);
        (values[ZERO as usize], values[ONE as usize]) = (0, 1);
        if let Some(fault) = fault {
            circuit.build_in(fault, &mut values);
        }
        for record in test.chunks_exact(circuit.inputs.len()) {
            for (&place, &value) in circuit.inputs.iter().zip(record) { values[place as usize] = value; }
            for (&[place, _], &value) in circuit.flip_flops.iter().zip(&state) { values[place as usize] = value; }
            for gate in &circuit.gates {
                values[gate.place as usize] = E::gate(gate.kind, gate.pins.map(|place| values[place as usize]));
            }
            for (&[_, read], value) in circuit.flip_flops.iter().zip(&mut state) { *value = values[read as usize]; }
            if ends(&circuit.outputs, &values) { return; }
        }
    }
}

/// AND, OR or XOR of what pins see, by the kind of the gate, before it inverts.
#[inline(always)]
fn combine(kind: u8, a: u8, b: u8) -> u8 {
    match kind {
        4..=5 => if a == 0 || b == 0 { 0 } else { a.max(b) },
        6..=7 => if a == 1 || b == 1 { 1 } else { a.max(b) },
        _ => if a == X || b == X { X } else { a ^ b },
    }
}

/// The loop over the records, for the bytes of a valid circuit: nothing is prepared, and every line asks for the fault.
/// After each unit, `ends` is asked, with what the outputs show, if the run ends here.
#[inline(always)]
fn run_records(bytes: &[u8], inputs: usize, test: &[u8], [low, high, pin, stuck]: Fault, mut ends: impl FnMut(&[u8]) -> bool) {
    let line = u16::from_le_bytes([low, high]) as usize;
    let (mut values, mut state, mut next, mut shown) = ([X; 4096], [X; 256], [X; 256], [X; 256]);
    for unit in test.chunks_exact(inputs) {
        let (mut unit, mut flip_flops, mut outputs) = (unit.iter(), 0, 0);
        for (n, record) in bytes.chunks_exact(12).enumerate() {
            let seen = |values: &[u8; 4096], p: usize| {
                let named = u16::from_le_bytes([record[2 + 2 * p], record[3 + 2 * p]]) as usize & 4095;
                if n == line && p == pin as usize { stuck } else { values[named] }
            };
            let kind = record[0];
            let plain = match kind {
                0 => *unit.next().unwrap_or(&X),
                1 => {
                    flip_flops += 1;
                    state[(flip_flops - 1) & 255]
                }
                _ => {
                    let mut value = seen(&values, 1);
                    for p in 2..=(record[1] & 7).min(4) as usize { value = combine(kind, value, seen(&values, p)); }
                    if value == X { X } else { value ^ kind & 1 }
                }
            };
            values[n & 4095] = if n == line && pin == 0 { stuck } else { plain };
            if record[2] == 1 {
                shown[outputs & 255] = values[n & 4095];
                outputs += 1;
            }
        }
        flip_flops = 0;
        for (n, record) in bytes.chunks_exact(12).enumerate().filter(|(_, record)| record[0] == 1) {
            let named = u16::from_le_bytes([record[4], record[5]]) as usize & 4095;
            next[flip_flops & 255] = if n == line && pin == 1 { stuck } else { values[named] };
            flip_flops += 1;
        }
        state = next;
        if ends(&shown[..outputs & 511]) { return; }
    }
}

/// Random numbers from a seed (the method known as splitmix64), and what is made of them.
struct Random(u64);

impl Random {
    /// A number below the limit.
    fn below(&mut self, limit: usize) -> usize {
        self.0 = self.0.wrapping_add(0x9E37_79B9_7F4A_7C15);
        let z = (self.0 ^ self.0 >> 30).wrapping_mul(0xBF58_476D_1CE4_E5B9);
        let z = (z ^ z >> 27).wrapping_mul(0x94D0_49BB_1331_11EB);
        ((z ^ z >> 31) % limit as u64) as usize
    }

    /// Circuit records. `every` says how many lines apart inputs, flip-flops and outputs are (1: no flip-flop at all).
    /// Three of four gate pins name one of the N / 8 + 4 lines before, the others any lower line.
    fn circuit(&mut self, lines: usize, every: [usize; 3]) -> Vec<u8> {
        let mut bytes = vec![];
        for line in 0..lines {
            let (kind, count) = match 2 + self.below(8) {
                _ if line % every[0] == 0 => (0, 0),
                _ if line % every[1] == 1 => (1, 1),
                kind => (kind, if kind < 4 { 1 } else { 2 + self.below(3) }),
            };
            bytes.extend([kind as u8, count as u8, ((line + 1) % every[2] == 0) as u8, 0]);
            for pin in 0..4 {
                let named = match kind {
                    _ if pin >= count => 0,
                    1 => self.below(lines),
                    _ if self.below(4) == 0 => self.below(line),
                    _ => line - 1 - self.below(line.min(lines / 8 + 4)),
                };
                bytes.extend((named as u16).to_le_bytes());
            }
        }
        bytes
    }

    /// Valid faults of a circuit; repeats may occur.
    fn faults(&mut self, count: usize, circuit: &[u8]) -> Vec<Fault> {
        (0..count).map(|_| {
            let line = self.below(circuit.len() / 12);
            let pin = self.below(1 + circuit[12 * line + 1] as usize);
            [line as u8, (line >> 8) as u8, pin as u8, self.below(2) as u8]
        }).collect()
    }
}

struct Job {
    bytes: Vec<u8>,
    circuit: Circuit, // decoded from the bytes
    test: Vec<u8>,
    free: Vec<u8>, // the fault-free response, by time, then output line
}

impl Job {
    /// A random circuit and test, and the response to it.
    fn new(random: &mut Random, lines: usize, every: [usize; 3], units: usize) -> Job {
        let bytes = random.circuit(lines, every);
        let circuit = Circuit::decode(&bytes);
        let test: Vec<u8> = (0..units * circuit.inputs.len()).map(|_| random.below(2) as u8).collect();
        let mut free = vec![];
        circuit.run::<ByTable>(&test, None, |outputs, values| {
            free.extend(outputs.iter().map(|&place| values[place as usize]));
            false
        });
        Job { bytes, circuit, test, free }
    }

    /// By a byte loop: is this fault detected? The run ends with the first unit that shows it.
    fn detected<E: Evaluate>(&self, fault: Fault) -> bool {
        let (mut free, mut detected) = (self.free.chunks_exact(self.circuit.outputs.len()), false);
        self.circuit.run::<E>(&self.test, Some(fault), |outputs, values| {
            let free = free.next().unwrap_or(&[]);
            // Of the values 0, 1 and 2, only the opposite ones, 0 and 1, differ in the lowest bit alone.
            detected = outputs.iter().zip(free).any(|(&place, &free)| values[place as usize] ^ free == 1);
            detected
        });
        detected
    }

    /// By the loop over the records.
    fn detected_by_records(&self, fault: Fault) -> bool {
        let (mut free, mut detected) = (self.free.chunks_exact(self.circuit.outputs.len()), false);
        run_records(&self.bytes, self.circuit.inputs.len(), &self.test, fault, |shown| {
            detected = shown.iter().zip(free.next().unwrap_or(&[])).any(|(shown, free)| shown ^ free == 1);
            detected
        });
        detected
    }

    /// By the engine: a word with a bit for each of at most 64 faults.
    fn engine(&self, faults: &[Fault]) -> u64 {
        let (bytes, test, faults, free) = (&self.bytes, &self.test, faults.as_flattened(), &self.free);
        // Each pointer goes with the length of the slice that it comes from, and the engine only reads.
        unsafe { balithoomai_detected(bytes.as_ptr(), bytes.len(), test.as_ptr(), test.len(),
            faults.as_ptr(), faults.len(), free.as_ptr(), free.len()) }
    }

    /// Ends the program if the engine and a byte loop differ in any lane; else gives the number of detected faults.
    fn check(&self, faults: &[Fault]) -> u32 {
        let word = self.engine(faults);
        for lane in 0..64 {
            let engine = word >> lane & 1 == 1;
            let fault = faults.get(lane);
            let by_match = fault.is_some_and(|&fault| self.detected::<ByMatch>(fault));
            let by_table = fault.is_some_and(|&fault| self.detected::<ByTable>(fault));
            let by_records = fault.is_some_and(|&fault| self.detected_by_records(fault));
            if engine != by_match || engine != by_table || engine != by_records {
                println!("DIFFERENT: N {}, lane {lane}, fault record {fault:?}: detected by the engine {engine}, \
                    by records {by_records}, by match {by_match}, by table {by_table}", self.bytes.len() / 12);
                exit(1);
            }
        }
        word.count_ones()
    }

    /// Times all in turn on 64 undetected faults.
    fn measure(&self, faults: &[Fault]) {
        let [mut engine, mut by_records, mut by_match, mut by_table] = [vec![], vec![], vec![], vec![]];
        for round in 0..ROUNDS {
            engine.push(time(|| self.engine(black_box(faults))));
            for lane in (round % 8..64).step_by(8) {
                by_records.push(time(|| self.detected_by_records(black_box(faults[lane]))));
                by_match.push(time(|| self.detected::<ByMatch>(black_box(faults[lane]))));
                by_table.push(time(|| self.detected::<ByTable>(black_box(faults[lane]))));
            }
        }
        let lines = self.bytes.len() / 12;
        let median = |mut times: Vec<f64>| {
            times.sort_by(f64::total_cmp);
            times[times.len() / 2] / (lines * UNITS) as f64
        };
        let engine = median(engine);
        println!("N {lines}, L {UNITS}, nanoseconds per line and unit: engine, 64 faults, {engine:.2}");
        for (name, times) in [("records", by_records), ("match", by_match), ("table", by_table)] {
            let one = median(times);
            println!("  byte loop by {name}, one fault, {one:.2}: ratio {:.2}, per fault {:.4}", engine / one, engine / one / 64.0);
        }
    }
}

/// Nanoseconds of one call.
fn time<T>(call: impl Fn() -> T) -> f64 {
    let start = Instant::now();
    black_box(call());
    start.elapsed().as_nanos() as f64
}

/// A large circuit, checked, with 64 different faults that its test does not detect; from this seed or a later one.
fn large(lines: usize, seed: u64) -> (Job, Vec<Fault>) {
    let mut random = Random(seed);
    let job = Job::new(&mut random, lines, [32, 16, 32], UNITS);
    let detected = job.check(&random.faults(64, &job.bytes));
    let mut kept = vec![];
    for fault in random.faults(1000, &job.bytes) {
        if kept.len() < 64 && !kept.contains(&fault) && !job.detected::<ByTable>(fault) { kept.push(fault); }
    }
    job.check(&kept);
    // The engine's word for an invalid job would be 0 too. So some of the first 64 faults must be detected.
    if detected < 8 || kept.len() < 64 { return large(lines, seed + 1); }
    println!("N {lines}, seed {seed}: same answers for 64 faults, {detected} detected, and for 64 undetected ones");
    (job, kept)
}

/// Small circuits, then the two large ones; times come last, when all answers have agreed.
fn main() {
    let (mut random, mut faults, mut detected) = (Random(1), 0, 0);
    for _ in 0..SMALL_CIRCUITS {
        let every = [8, 16, 8].map(|limit| 1 + random.below(limit));
        let (lines, units) = (8 + random.below(53), 1 + random.below(20));
        let job = Job::new(&mut random, lines, every, units);
        let count = random.below(65);
        detected += job.check(&random.faults(count, &job.bytes));
        faults += count;
    }
    println!("{SMALL_CIRCUITS} small circuits: same answers for {faults} faults, {detected} detected");
    let large = [large(256, 1), large(4096, 1)];
    large.iter().for_each(|(job, faults)| job.measure(faults));
}
