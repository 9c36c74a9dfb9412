//! Packing in edition 2 by the library and by the second solver: rows with a list of b1 beside them, of any length and about every
//! limit.

use crate::calls::bytes_of;
use crate::hex;
use crate::lent::{difference_of, random_byte, random_u32, Lent};
use crate::library::shahfureel_pack2;
use crate::program::{compared, refusal_or_length};
use crate::random::Random;
use crate::solver;
use crate::tally::{Numbers, POSSIBLE_OF_PACKINGS};

const NAME: &str = "pack2";

#[derive(Clone, Debug, PartialEq)]
struct Buffers {
    rows: Lent<u32>,
    b1: Lent<i32>,
    file: Lent<u8>,
}

fn library_answer(demand: u32, buffers: &mut Buffers) -> u32 {
    let (rows, b1, file) = (buffers.rows.part(), buffers.b1.part(), buffers.file.part());
    // Each pointer is that of a part of a list that lives on, with the part's length; no two parts overlap.
    unsafe { shahfureel_pack2(demand, rows.as_ptr(), rows.len(), b1.as_ptr(), b1.len(), file.as_mut_ptr(), file.len()) }
}

fn solver_answer(demand: u32, buffers: &mut Buffers) -> u32 {
    solver::panel_pack2(demand, buffers.rows.part(), buffers.b1.part(), buffers.file.part())
}

fn difference(library: &Buffers, solver: &Buffers) -> String {
    let mut text = difference_of("rows", &library.rows, &solver.rows);
    text += &difference_of("b1", &library.b1, &solver.b1);
    text + &difference_of("bytes", &library.file, &solver.file)
}

fn random_i32(random: &mut Random) -> i32 {
    random.next() as i32
}

/// A b1 in its range, mostly; or at a limit, or just past one, also of the sum with the row's losses.
fn some_b1(row: &[u32], random: &mut Random) -> i32 {
    let sum = 100_000_000 - 19_999 * i64::from(row[3].min(5_000)) - random.between(0, 1) as i64;
    let edge = random.pick(&[sum, 10_000_000, 10_000_001, -10_000_000, -10_000_001, i64::from(i32::MIN), i64::from(i32::MAX)]);
    let small = random.between(-1_000, 1_000) as i64;
    let any = random.between(-10_000_000, 10_000_000) as i64;
    random.pick(&[0, small, small, small, any, any, edge.clamp(i64::from(i32::MIN), i64::from(i32::MAX))]) as i32
}

/// How often such a call was answered, and refused by each number.
#[derive(Default)]
pub struct Packings(Numbers);

impl Packings {
    /// Packs rows with b1 of their own, in a buffer about as long as is needed.
    pub fn check(&mut self, demand: u32, rows: &[u32], random: &mut Random) -> Result<(), String> {
        let mut b1: Vec<i32> = rows.chunks_exact(19).map(|row| some_b1(row, random)).collect();
        if random.chance(12) {
            b1.resize(random.below(2 * b1.len() + 2), 0);
        }
        let needed = solver::pack2(demand, rows, &b1, &mut [0; 2_000]).unwrap_or(1_608);
        let room = random.pick(&[0, needed - 1, needed, needed, needed + 1, 1_608, 2_000]);
        let before = Buffers {
            rows: Lent::holding(rows, random, random_u32),
            b1: Lent::holding(&b1, random, random_i32),
            file: Lent::random(room, random, random_byte),
        };
        let by_library = |buffers: &mut Buffers| library_answer(demand, buffers);
        let by_solver = |buffers: &mut Buffers| solver_answer(demand, buffers);
        let (number, _) = compared(&before, by_library, by_solver, refusal_or_length, difference).map_err(|text| {
            format!("{}: demand {}, b1 {:?}, {} bytes lent, rows {}\n{}", NAME, demand, b1, room, hex(&bytes_of(rows)), text)
        })?;
        self.0.count(refusal_or_length(number));
        Ok(())
    }

    pub fn lines(&self) -> Vec<String> {
        self.0.lines(NAME)
    }

    pub fn assert_complete(&self) {
        self.0.assert_complete(NAME, POSSIBLE_OF_PACKINGS);
    }
}
