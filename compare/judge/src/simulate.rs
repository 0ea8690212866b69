//! The call Simulate: refuses a job or writes the plain response with at most one fault.

use crate::circuit::Fault;
use crate::refusals::{read_for_simulate, Refusal};
use crate::simulation::response;

/// The number of bytes written, or number and position of a refusal.
pub fn simulate(
    circuit: &[u8],
    test: &[u8],
    faults: &[u8],
    work_len: usize,
    result: &mut [u8],
) -> Result<usize, Refusal> {
    let job = read_for_simulate(circuit, test, faults, work_len, result.len())?;
    let fault = job.faults.first().copied().unwrap_or(Fault::NONE);
    let response = response(&job.circuit, fault, job.test);
    result[..response.len()].copy_from_slice(&response);
    Ok(response.len())
}
