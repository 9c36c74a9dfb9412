//! The calls of the static library that is tested, as include/shahfureel.h declares them.

use crate::program::refusal_or_length;
use crate::solver::{self, History, Refused, Reply};

extern "C" {
    pub fn shahfureel_dispatch(file: *const u8, file_length: usize, reply: *mut u8, reply_length: usize) -> u32;
    pub fn shahfureel_price(file: *const u8, file_length: usize, multiplier: u32, answers: *mut i64, answers_length: usize) -> u32;
    pub fn shahfureel_pack(demand: u32, rows: *const u32, rows_length: usize, file: *mut u8, file_length: usize) -> u32;
    pub fn shahfureel_pack2(
        demand: u32,
        rows: *const u32,
        rows_length: usize,
        b1: *const i32,
        b1_length: usize,
        file: *mut u8,
        file_length: usize,
    ) -> u32;
    pub fn shahfureel_unpack(
        file: *const u8,
        file_length: usize,
        rows: *mut u32,
        rows_length: usize,
        answers: *mut i64,
        answers_length: usize,
    ) -> u32;
    pub fn shahfureel_view(
        reply: *const u8,
        reply_length: usize,
        request: *const u8,
        request_length: usize,
        answer: *mut u8,
        answer_room: usize,
        lengths: *mut i64,
        lengths_room: usize,
    ) -> u32;
    pub fn shahfureel_judge(
        file: *const u8,
        file_length: usize,
        outputs: *const u32,
        outputs_length: usize,
        answers: *mut i64,
        answers_room: usize,
    ) -> u32;
    pub fn shahfureel_floors(
        file: *const u8,
        file_length: usize,
        demands: *const u32,
        demands_length: usize,
        floors: *mut i64,
        floors_room: usize,
        answers: *mut i64,
        answers_room: usize,
    ) -> u32;
    pub fn shahfureel_day(
        file: *const u8,
        file_length: usize,
        demands: *const u32,
        demands_length: usize,
        trace: *mut u8,
        trace_room: usize,
        histories: *mut History,
        histories_room: usize,
        answers: *mut i64,
        answers_room: usize,
    ) -> u32;
    pub fn shahfureel_run_start(numbers: *mut u64, held: *mut u8, file: *const u8, file_length: usize) -> u32;
    pub fn shahfureel_run_advance(
        numbers: *mut u64,
        held: *const u8,
        file: *const u8,
        file_length: usize,
        answers: *mut i64,
        answers_length: usize,
    ) -> u32;
    pub fn shahfureel_run_ask(numbers: *const u64, answers: *mut i64, answers_length: usize) -> u32;
    pub fn shahfureel_refine(file: *const u8, file_length: usize, budget: u32, reply: *mut u8, reply_room: usize) -> u32;
    pub fn shahfureel_gencost(row: *const u8, row_length: usize, answers: *mut i64, answers_room: usize) -> u32;
}

/// The library's dispatch of a file. (Inline, so that it is compiled only into programs that the library is linked to.)
#[inline]
pub fn dispatch(file: &[u8]) -> Result<Reply, Refused> {
    let mut reply = [0; 92];
    // Both pointers are those of lists that live on, with their lengths.
    let number = unsafe { shahfureel_dispatch(file.as_ptr(), file.len(), reply.as_mut_ptr(), reply.len()) };
    refusal_or_length(number).map_or_else(|| Ok(solver::decode_reply(&reply[..number as usize])), Err)
}
