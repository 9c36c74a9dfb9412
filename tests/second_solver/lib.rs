//! The second solver and its test cases, shared by the six programs.

pub mod branches;
pub mod budgeted;
pub mod budgets;
pub mod calls;
pub mod damage;
pub mod demands;
pub mod floored;
pub mod gencost;
pub mod gencost_branches;
pub mod gencost_misread;
pub mod gencost_rows;
pub mod gencost_vectors;
pub mod generate;
pub mod judged;
pub mod lent;
pub mod library;
pub mod lowered;
pub mod misread;
pub mod outputs;
pub mod packings;
pub mod parted;
pub mod program;
pub mod promise;
pub mod random;
pub mod refined;
pub mod runs;
pub mod slots;
pub mod slotted;
pub mod solver;
pub mod stepped;
pub mod tally;
pub mod vectors;

/// Bytes in lower-case hexadecimal.
pub fn hex(bytes: &[u8]) -> String {
    bytes.iter().map(|byte| format!("{:02x}", byte)).collect()
}
