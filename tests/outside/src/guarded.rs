//! The eight calls over memory that stands between guards. Whoever writes outside what is lent, or alters what is lent
//! for reading, is found out. The guards change from case to case, so that an answer drawn from them is sometimes wrong.

use crate::calls::Calls;
use crate::oracle::answer::Answer;

/// Elements before and after each lent part.
const MARGIN: usize = 40;

pub trait Element: Copy + PartialEq {
    const GUARDS: [Self; 5];
}

impl Element for u32 {
    const GUARDS: [u32; 5] = [0, u32::MAX, 32, 0xa5a5_a5a5, 1];
}

impl Element for i32 {
    const GUARDS: [i32; 5] = [0, -1, 1, i32::MIN, 0x5a5a_5a5a];
}

impl Element for u8 {
    /// A newline or a digit after the text would complete a line that is one byte short; a digit or a letter would go on
    /// with the last word of a rule.
    const GUARDS: [u8; 5] = [b'\n', b'0', 0, 0xff, b'f'];
}

/// A copy of what is lent, between guards.
struct Lent<T> {
    block: Vec<T>,
    guard: T,
}

impl<T: Element> Lent<T> {
    fn new(content: &[T], turn: usize) -> Self {
        let guard = T::GUARDS[turn % T::GUARDS.len()];
        let mut block = vec![guard; MARGIN];
        block.extend(content);
        block.resize(content.len() + 2 * MARGIN, guard);
        Lent { block, guard }
    }

    fn len(&self) -> usize {
        self.block.len() - 2 * MARGIN
    }

    /// A pointer to the lent part, made from the whole block, so that a trespass stays inside our own memory.
    fn pointer(&mut self) -> *mut T {
        self.block.as_mut_ptr().wrapping_add(MARGIN)
    }

    fn content(&self) -> &[T] {
        &self.block[MARGIN..self.block.len() - MARGIN]
    }

    fn guards_hold(&self) -> bool {
        let (before, rest) = self.block.split_at(MARGIN);
        before.iter().chain(&rest[self.len()..]).all(|element| *element == self.guard)
    }
}

/// The calls, safe to make from any slices; each gives the answer and the buffers that it might alter.
pub struct Guarded<'a> {
    calls: &'a Calls,
    turn: usize,
    trespasses: Vec<String>,
}

impl<'a> Guarded<'a> {
    /// `turn` picks the guards.
    pub fn new(calls: &'a Calls, turn: usize) -> Self {
        Guarded { calls, turn, trespasses: Vec::new() }
    }

    /// What the calls altered that they must not alter.
    pub fn trespasses(self) -> Vec<String> {
        self.trespasses
    }

    pub fn check(&mut self, table: &[u32]) -> Answer {
        let (mut words, mut answer) = (self.lend(table), self.lend_answer());
        unsafe { (self.calls.check)(words.pointer(), words.len(), answer.pointer()) };
        self.unaltered("table", words, table);
        self.answered(answer)
    }

    pub fn compile(&mut self, table: &[u32], start: u32, room: &[u32]) -> (Answer, Vec<u32>) {
        let (mut words, mut room, mut answer) = (self.lend(table), self.lend(room), self.lend_answer());
        unsafe {
            let (room, room_len) = (room.pointer(), room.len());
            (self.calls.compile)(words.pointer(), words.len(), start, room, room_len, answer.pointer());
        }
        self.unaltered("table", words, table);
        (self.answered(answer), self.returned("room", room))
    }

    pub fn run_source(&mut self, table: &[u32], store: &[i32], fuel: u32) -> (Answer, Vec<i32>) {
        let (mut words, mut store, mut answer) = (self.lend(table), self.lend(store), self.lend_answer());
        unsafe {
            let (store, store_len) = (store.pointer(), store.len());
            (self.calls.run_source)(words.pointer(), words.len(), store, store_len, fuel, answer.pointer());
        }
        self.unaltered("table", words, table);
        (self.answered(answer), self.returned("store", store))
    }

    pub fn run_code(
        &mut self,
        table: &[u32],
        code: &[u32],
        start: u32,
        store: &[i32],
        fuel: u32,
    ) -> (Answer, Vec<i32>) {
        let (mut words, mut frames) = (self.lend(table), self.lend(code));
        let (mut store, mut answer) = (self.lend(store), self.lend_answer());
        unsafe {
            let (words, words_len) = (words.pointer(), words.len());
            let (frames, frames_len) = (frames.pointer(), frames.len());
            let (store, store_len) = (store.pointer(), store.len());
            let answer = answer.pointer();
            (self.calls.run_code)(words, words_len, frames, frames_len, start, store, store_len, fuel, answer);
        }
        self.unaltered("table", words, table);
        self.unaltered("code", frames, code);
        (self.answered(answer), self.returned("store", store))
    }

    pub fn run_depot(
        &mut self,
        table: &[u32],
        code: &[u32],
        start: u32,
        stores: &[i32],
        fuel: u32,
        room: &[u32],
    ) -> (Answer, Vec<i32>, Vec<u32>) {
        let (mut words, mut frames) = (self.lend(table), self.lend(code));
        let (mut stores, mut room, mut answer) = (self.lend(stores), self.lend(room), self.lend_answer());
        unsafe {
            let (words, words_len) = (words.pointer(), words.len());
            let (frames, frames_len) = (frames.pointer(), frames.len());
            let (stores, stores_len) = (stores.pointer(), stores.len());
            let (room, room_len) = (room.pointer(), room.len());
            let (answer, run_depot) = (answer.pointer(), self.calls.run_depot);
            run_depot(words, words_len, frames, frames_len, start, stores, stores_len, fuel, room, room_len, answer);
        }
        self.unaltered("table", words, table);
        self.unaltered("code", frames, code);
        (self.answered(answer), self.returned("stores", stores), self.returned("room", room))
    }

    pub fn read_text(&mut self, text: &[u8], room: &[u32]) -> (Answer, Vec<u32>) {
        let (mut bytes, mut room, mut answer) = (self.lend(text), self.lend(room), self.lend_answer());
        unsafe {
            let (room, room_len) = (room.pointer(), room.len());
            (self.calls.read_text)(bytes.pointer(), bytes.len(), room, room_len, answer.pointer());
        }
        self.unaltered("text", bytes, text);
        (self.answered(answer), self.returned("room", room))
    }

    pub fn write_text(&mut self, words: &[u32], room: &[u8]) -> (Answer, Vec<u8>) {
        let (mut frames, mut room, mut answer) = (self.lend(words), self.lend(room), self.lend_answer());
        unsafe {
            let (room, room_len) = (room.pointer(), room.len());
            (self.calls.write_text)(frames.pointer(), frames.len(), room, room_len, answer.pointer());
        }
        self.unaltered("words", frames, words);
        (self.answered(answer), self.returned("room", room))
    }

    pub fn read_rule(&mut self, text: &[u8], room: &[u32]) -> (Answer, Vec<u32>) {
        let (mut bytes, mut room, mut answer) = (self.lend(text), self.lend(room), self.lend_answer());
        unsafe {
            let (room, room_len) = (room.pointer(), room.len());
            (self.calls.read_rule)(bytes.pointer(), bytes.len(), room, room_len, answer.pointer());
        }
        self.unaltered("text", bytes, text);
        (self.answered(answer), self.returned("room", room))
    }

    fn lend<T: Element>(&self, content: &[T]) -> Lent<T> {
        Lent::new(content, self.turn)
    }

    /// Eight words with something in them: every call writes all eight.
    fn lend_answer(&self) -> Lent<u32> {
        self.lend(&[0xdead_beef; 8])
    }

    fn answered(&mut self, answer: Lent<u32>) -> Answer {
        let words = self.returned("answer", answer);
        words.try_into().expect("eight words were lent")
    }

    fn unaltered<T: Element>(&mut self, name: &str, lent: Lent<T>, content: &[T]) {
        if self.returned(name, lent) != content {
            self.trespasses.push(format!("{name}, lent for reading, was altered"));
        }
    }

    fn returned<T: Element>(&mut self, name: &str, lent: Lent<T>) -> Vec<T> {
        if !lent.guards_hold() {
            self.trespasses.push(format!("memory beside {name} was altered"));
        }
        lent.content().to_vec()
    }
}
