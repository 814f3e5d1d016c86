//! The library's calls over plain slices: the same shape as the oracle's, and no guards, so that only the call is timed.

use outside::calls::{subject, Calls};
use outside::oracle::answer::Answer;

pub struct Ours {
    calls: Calls,
}

impl Ours {
    pub fn new() -> Self {
        Ours { calls: subject() }
    }

    pub fn check(&self, table: &[u32]) -> Answer {
        answered(|answer| unsafe { (self.calls.check)(table.as_ptr(), table.len(), answer) })
    }

    pub fn compile(&self, table: &[u32], start: u32, room: &mut [u32]) -> Answer {
        answered(|answer| unsafe {
            (self.calls.compile)(table.as_ptr(), table.len(), start, room.as_mut_ptr(), room.len(), answer)
        })
    }

    pub fn run_source(&self, table: &[u32], store: &mut [i32], fuel: u32) -> Answer {
        answered(|answer| unsafe {
            (self.calls.run_source)(table.as_ptr(), table.len(), store.as_mut_ptr(), store.len(), fuel, answer)
        })
    }

    pub fn run_code(&self, table: &[u32], code: &[u32], start: u32, store: &mut [i32], fuel: u32) -> Answer {
        let (words, len) = (table.as_ptr(), table.len());
        let (values, count) = (store.as_mut_ptr(), store.len());
        answered(|answer| unsafe {
            (self.calls.run_code)(words, len, code.as_ptr(), code.len(), start, values, count, fuel, answer)
        })
    }

    pub fn run_depot(
        &self,
        table: &[u32],
        code: &[u32],
        start: u32,
        stores: &mut [i32],
        fuel: u32,
        room: &mut [u32],
    ) -> Answer {
        let (words, len) = (table.as_ptr(), table.len());
        let (frames, frames_len) = (code.as_ptr(), code.len());
        let (values, count) = (stores.as_mut_ptr(), stores.len());
        let (rows, rows_len) = (room.as_mut_ptr(), room.len());
        answered(|answer| unsafe {
            (self.calls.run_depot)(words, len, frames, frames_len, start, values, count, fuel, rows, rows_len, answer)
        })
    }

    pub fn read_text(&self, text: &[u8], room: &mut [u32]) -> Answer {
        answered(|answer| unsafe {
            (self.calls.read_text)(text.as_ptr(), text.len(), room.as_mut_ptr(), room.len(), answer)
        })
    }

    pub fn write_text(&self, words: &[u32], room: &mut [u8]) -> Answer {
        answered(|answer| unsafe {
            (self.calls.write_text)(words.as_ptr(), words.len(), room.as_mut_ptr(), room.len(), answer)
        })
    }

    pub fn read_rule(&self, text: &[u8], room: &mut [u32]) -> Answer {
        answered(|answer| unsafe {
            (self.calls.read_rule)(text.as_ptr(), text.len(), room.as_mut_ptr(), room.len(), answer)
        })
    }
}

fn answered(call: impl FnOnce(*mut u32)) -> Answer {
    let mut answer = [0; 8];
    call(answer.as_mut_ptr());
    answer
}
