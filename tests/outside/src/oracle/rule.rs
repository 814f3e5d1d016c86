//! Request A4, "rules as planners type them". The grammar by plain recursive descent: the parser looks at one byte at a time
//! and never goes back, and where it stops is the place of 17. The table that it makes is then checked as any table is.

use super::answer::{done, refuse, Answer, Refusal};
use super::table::{check, MOST_NODES};

/// "Brackets, chooses (with their brackets), ifs and whiles together nest at most 256 deep."
pub const MOST_NESTED: u32 = 256;
pub const MOST_NUMBER: u32 = 2_147_483_647;
pub const LAST_VARIABLE: u32 = 31;

const NUMBER: u32 = 1;
const VARIABLE: u32 = 2;
const SUM: u32 = 3;
const DIFFERENCE: u32 = 4;
const PRODUCT: u32 = 5;
const QUOTIENT: u32 = 6;
const REMAINDER: u32 = 7;
const CHOOSE: u32 = 8;
const TRUE: u32 = 16;
const FALSE: u32 = 17;
const EQUAL: u32 = 18;
const AT_MOST: u32 = 19;
const LESS: u32 = 20;
const NOT: u32 = 21;
const AND: u32 = 22;
const SKIP: u32 = 32;
const ASSIGN: u32 = 33;
const SEQUENCE: u32 = 34;
const IF: u32 = 35;
const WHILE: u32 = 36;

/// "Text is accepted exactly if it is in this grammar, its table passes 01 and fits the room."
pub fn read(text: &[u8], room: &mut [u32]) -> Result<Answer, Refusal> {
    let table = parse(text)?;
    check(&table)?;
    if room.len() < table.len() {
        return refuse(15, 0);
    }
    room[..table.len()].copy_from_slice(&table);
    Ok(done(0, table.len() as u32))
}

/// The table of a text of the grammar, whatever 01 says to it: it may have any number of nodes, and any depth.
pub fn parse(text: &[u8]) -> Result<Vec<u32>, Refusal> {
    let mut reader = Reader::new(text);
    match reader.rule() {
        Ok(()) => Ok(reader.nodes.into_flattened()),
        Err(Stopped) => refuse(17, reader.place),
    }
}

/// The nodes of as much of a text as is in the grammar, whole or not.
pub fn nodes_of(text: &[u8]) -> Vec<u32> {
    let mut reader = Reader::new(text);
    let _ = reader.rule();
    reader.nodes.into_flattened()
}

struct Reader<'a> {
    text: &'a [u8],
    place: usize,
    /// Brackets, chooses, ifs and whiles that are open.
    nested: u32,
    nodes: Vec<[u32; 4]>,
    /// The statements, but for the last, of all rows that are not yet at their end.
    rows: Vec<u32>,
}

/// No text of the grammar goes on so.
struct Stopped;

/// The number of the node that was made of a part.
type Read = Result<u32, Stopped>;

impl<'a> Reader<'a> {
    fn new(text: &'a [u8]) -> Self {
        Reader { text, place: 0, nested: 0, nodes: Vec::with_capacity(MOST_NODES), rows: Vec::new() }
    }

    fn rule(&mut self) -> Result<(), Stopped> {
        self.blanks();
        self.row()?;
        if self.place < self.text.len() {
            return Err(Stopped);
        }
        Ok(())
    }

    /// "One or more statements separated by ";"." The row groups to the right, so that its last statement is joined first.
    fn row(&mut self) -> Read {
        let before = self.rows.len();
        let mut rest = self.statement()?;
        while self.peek() == Some(b';') {
            self.past_sign();
            self.rows.push(rest);
            rest = self.statement()?;
        }
        for i in (before..self.rows.len()).rev() {
            rest = self.node(SEQUENCE, [self.rows[i], rest]);
        }
        self.rows.truncate(before);
        Ok(rest)
    }

    fn statement(&mut self) -> Read {
        match self.peek() {
            Some(b's') => {
                self.word(b"skip")?;
                Ok(self.node(SKIP, []))
            }
            Some(b'v') => self.assign(),
            Some(b'i') => self.if_else(),
            Some(b'w') => self.while_do(),
            _ => Err(Stopped),
        }
    }

    fn assign(&mut self) -> Read {
        let variable = self.variable()?;
        self.bytes(b":=")?;
        self.blanks();
        let value = self.arithmetic()?;
        Ok(self.node(ASSIGN, [variable, value]))
    }

    /// What stands between `if` and `end`, the test too, is inside it.
    fn if_else(&mut self) -> Read {
        self.open()?;
        self.word(b"if")?;
        let test = self.boolean()?;
        self.word(b"then")?;
        let yes = self.row()?;
        self.word(b"else")?;
        let no = self.row()?;
        self.word(b"end")?;
        self.close();
        Ok(self.node(IF, [test, yes, no]))
    }

    fn while_do(&mut self) -> Read {
        self.open()?;
        self.word(b"while")?;
        let test = self.boolean()?;
        self.word(b"do")?;
        let body = self.row()?;
        self.word(b"end")?;
        self.close();
        Ok(self.node(WHILE, [test, body]))
    }

    /// "+ and - below *, / and %, all grouping to the left."
    fn arithmetic(&mut self) -> Read {
        let mut left = self.term()?;
        loop {
            let kind = match self.peek() {
                Some(b'+') => SUM,
                Some(b'-') => DIFFERENCE,
                _ => return Ok(left),
            };
            self.past_sign();
            let right = self.term()?;
            left = self.node(kind, [left, right]);
        }
    }

    fn term(&mut self) -> Read {
        let mut left = self.factor()?;
        loop {
            let kind = match self.peek() {
                Some(b'*') => PRODUCT,
                Some(b'/') => QUOTIENT,
                Some(b'%') => REMAINDER,
                _ => return Ok(left),
            };
            self.past_sign();
            let right = self.factor()?;
            left = self.node(kind, [left, right]);
        }
    }

    fn factor(&mut self) -> Read {
        match self.peek() {
            Some(b'0'..=b'9') => {
                let number = self.number(MOST_NUMBER)?;
                Ok(self.node(NUMBER, [number]))
            }
            Some(b'v') => {
                let variable = self.variable()?;
                Ok(self.node(VARIABLE, [variable]))
            }
            Some(b'(') => {
                self.open()?;
                self.sign(b'(')?;
                let inner = self.arithmetic()?;
                self.sign(b')')?;
                self.close();
                Ok(inner)
            }
            Some(b'c') => self.choose(),
            _ => Err(Stopped),
        }
    }

    /// One level, with its brackets.
    fn choose(&mut self) -> Read {
        self.open()?;
        self.word(b"choose")?;
        self.sign(b'(')?;
        let test = self.boolean()?;
        self.sign(b',')?;
        let yes = self.arithmetic()?;
        self.sign(b',')?;
        let no = self.arithmetic()?;
        self.sign(b')')?;
        self.close();
        Ok(self.node(CHOOSE, [test, yes, no]))
    }

    /// "Joined by `and` to the left."
    fn boolean(&mut self) -> Read {
        let mut left = self.negation()?;
        while self.peek() == Some(b'a') {
            self.word(b"and")?;
            let right = self.negation()?;
            left = self.node(AND, [left, right]);
        }
        Ok(left)
    }

    /// "`not` before one of these five or a bracketed one": a second `not` is none of them.
    fn negation(&mut self) -> Read {
        if self.peek() != Some(b'n') {
            return self.test();
        }
        self.word(b"not")?;
        let test = self.test()?;
        Ok(self.node(NOT, [test]))
    }

    fn test(&mut self) -> Read {
        match self.peek() {
            Some(b't') => {
                self.word(b"true")?;
                Ok(self.node(TRUE, []))
            }
            Some(b'f') => {
                self.word(b"false")?;
                Ok(self.node(FALSE, []))
            }
            Some(b'[') => {
                self.open()?;
                self.sign(b'[')?;
                let inner = self.boolean()?;
                self.sign(b']')?;
                self.close();
                Ok(inner)
            }
            _ => self.comparison(),
        }
    }

    fn comparison(&mut self) -> Read {
        let left = self.arithmetic()?;
        let kind = self.comparison_sign()?;
        let right = self.arithmetic()?;
        Ok(self.node(kind, [left, right]))
    }

    fn comparison_sign(&mut self) -> Result<u32, Stopped> {
        let first = self.peek();
        if first != Some(b'=') && first != Some(b'<') {
            return Err(Stopped);
        }
        self.place += 1;
        let kind = match (first, self.peek()) {
            (Some(b'='), _) => EQUAL,
            (_, Some(b'=')) => {
                self.place += 1;
                AT_MOST
            }
            _ => LESS,
        };
        self.blanks();
        Ok(kind)
    }

    fn variable(&mut self) -> Result<u32, Stopped> {
        self.bytes(b"v")?;
        self.number(LAST_VARIABLE)
    }

    /// Digits without a leading zero, of a number that is not over `most`.
    fn number(&mut self, most: u32) -> Result<u32, Stopped> {
        let mut number = self.digit().ok_or(Stopped)?;
        self.place += 1;
        while let Some(digit) = self.digit() {
            if number == 0 || number > (most - digit) / 10 {
                return Err(Stopped);
            }
            number = 10 * number + digit;
            self.place += 1;
        }
        self.end_word()?;
        Ok(number)
    }

    fn digit(&self) -> Option<u32> {
        match self.peek() {
            Some(byte @ b'0'..=b'9') => Some(u32::from(byte - b'0')),
            _ => None,
        }
    }

    fn word(&mut self, word: &[u8]) -> Result<(), Stopped> {
        self.bytes(word)?;
        self.end_word()
    }

    /// "Must part two words (runs of letters or digits)": a word goes on to the end of its run.
    fn end_word(&mut self) -> Result<(), Stopped> {
        if self.peek().is_some_and(|byte| byte.is_ascii_alphanumeric()) {
            return Err(Stopped);
        }
        self.blanks();
        Ok(())
    }

    fn sign(&mut self, sign: u8) -> Result<(), Stopped> {
        if self.peek() != Some(sign) {
            return Err(Stopped);
        }
        self.past_sign();
        Ok(())
    }

    fn past_sign(&mut self) {
        self.place += 1;
        self.blanks();
    }

    fn bytes(&mut self, bytes: &[u8]) -> Result<(), Stopped> {
        for &byte in bytes {
            if self.peek() != Some(byte) {
                return Err(Stopped);
            }
            self.place += 1;
        }
        Ok(())
    }

    /// Bytes 32 and 10, and no others.
    fn blanks(&mut self) {
        while let Some(b' ' | b'\n') = self.peek() {
            self.place += 1;
        }
    }

    fn peek(&self) -> Option<u8> {
        self.text.get(self.place).copied()
    }

    /// Before the first byte of what is opened: beyond the limit no text goes on with it.
    fn open(&mut self) -> Result<(), Stopped> {
        if self.nested == MOST_NESTED {
            return Err(Stopped);
        }
        self.nested += 1;
        Ok(())
    }

    fn close(&mut self) {
        self.nested -= 1;
    }

    /// "Nodes are written children first": those that the words name are there.
    fn node<const N: usize>(&mut self, kind: u32, words: [u32; N]) -> u32 {
        let mut frame = [kind, 0, 0, 0];
        frame[1..=N].copy_from_slice(&words);
        self.nodes.push(frame);
        self.nodes.len() as u32 - 1
    }
}
