//! Typed rules: a program in the words of the request, with the table that must come of it; its blanks; and its faults.

use crate::oracle::rule::MOST_NUMBER;
use crate::oracle::table::frame;
use crate::random::Random;
use crate::trees::*;

/// The tokens of a rule, and the table that it has by the request: children first, left to right, rows grouped to the right.
pub struct Typed {
    pub tokens: Vec<String>,
    pub table: Vec<u32>,
}

/// A program as it might be typed. Brackets stand where they must, and here and there where they need not. A number that cannot be
/// typed gives way to one that can, and rows inside a row become one row.
pub fn typed(random: &mut Random, program: &Tree) -> Typed {
    let program = program.table();
    let spare = random.pick(&[4, 10, 1_000_000]);
    let mut typist = Typist { random, program: &program, spare, tokens: vec![], table: vec![] };
    typist.row(program.len() / 4 - 1);
    Typed { tokens: typist.tokens, table: typist.table }
}

struct Typist<'a> {
    random: &'a mut Random,
    program: &'a [u32],
    /// Brackets that need not be stand once in so many places.
    spare: usize,
    tokens: Vec<String>,
    table: Vec<u32>,
}

/// Where an expression stands: what may stand there without brackets.
#[derive(Clone, Copy, PartialEq, PartialOrd)]
enum Place {
    /// Anything.
    Open,
    /// To the right of + or -, to the left of *, / or %: no sum, no difference. To the right of `and`: no other `and`.
    Joined,
    /// To the right of *, / or %: a number, a variable or a choose. After `not`: one of the five.
    Tight,
}

impl Typist<'_> {
    fn say(&mut self, token: impl Into<String>) {
        self.tokens.push(token.into());
    }

    fn write(&mut self, frame: [u32; 4]) -> u32 {
        self.table.extend(frame);
        self.table.len() as u32 / 4 - 1
    }

    fn row(&mut self, node: usize) -> u32 {
        let mut statements = vec![];
        self.flatten(node, &mut statements);
        let mut written = vec![];
        for (i, &statement) in statements.iter().enumerate() {
            if i > 0 {
                self.say(";");
            }
            written.push(self.statement(statement));
        }
        let last = written.pop().expect("a row has a statement");
        written.into_iter().rev().fold(last, |rest, first| self.write([34, first, rest, 0]))
    }

    fn flatten(&self, node: usize, statements: &mut Vec<usize>) {
        match frame(self.program, node) {
            [34, p, q, _] => {
                self.flatten(p as usize, statements);
                self.flatten(q as usize, statements);
            }
            _ => statements.push(node),
        }
    }

    fn statement(&mut self, node: usize) -> u32 {
        let [kind, p, q, r] = frame(self.program, node);
        match kind {
            32 => {
                self.say("skip");
                self.write([32, 0, 0, 0])
            }
            33 => {
                self.say(format!("v{p}"));
                self.say(":=");
                let value = self.arithmetic(q, Place::Open);
                self.write([33, p, value, 0])
            }
            35 => {
                self.say("if");
                let test = self.boolean(p, Place::Open);
                self.say("then");
                let yes = self.row(q as usize);
                self.say("else");
                let no = self.row(r as usize);
                self.say("end");
                self.write([35, test, yes, no])
            }
            _ => {
                self.say("while");
                let test = self.boolean(p, Place::Open);
                self.say("do");
                let body = self.row(q as usize);
                self.say("end");
                self.write([36, test, body, 0])
            }
        }
    }

    fn arithmetic(&mut self, node: u32, place: Place) -> u32 {
        let needed = match self.program[4 * node as usize] {
            3 | 4 => place > Place::Open,
            5..=7 => place > Place::Joined,
            _ => false,
        };
        if needed || self.random.once_in(self.spare) {
            self.say("(");
            let inner = self.arithmetic(node, Place::Open);
            self.say(")");
            return inner;
        }
        let [kind, p, q, r] = frame(self.program, node as usize);
        match kind {
            1 => {
                let number = p & MOST_NUMBER;
                self.say(number.to_string());
                self.write([1, number, 0, 0])
            }
            2 => {
                self.say(format!("v{p}"));
                self.write([2, p, 0, 0])
            }
            3 | 4 => self.operation(node, ["+", "-"][kind as usize - 3], [Place::Open, Place::Joined]),
            5..=7 => self.operation(node, ["*", "/", "%"][kind as usize - 5], [Place::Joined, Place::Tight]),
            _ => {
                self.say("choose");
                self.say("(");
                let test = self.boolean(p, Place::Open);
                self.say(",");
                let yes = self.arithmetic(q, Place::Open);
                self.say(",");
                let no = self.arithmetic(r, Place::Open);
                self.say(")");
                self.write([8, test, yes, no])
            }
        }
    }

    fn boolean(&mut self, node: u32, place: Place) -> u32 {
        let needed = match self.program[4 * node as usize] {
            22 => place > Place::Open,
            21 => place > Place::Joined,
            _ => false,
        };
        if needed || self.random.once_in(self.spare) {
            self.say("[");
            let inner = self.boolean(node, Place::Open);
            self.say("]");
            return inner;
        }
        let [kind, p, q, _] = frame(self.program, node as usize);
        match kind {
            16 | 17 => {
                self.say(["true", "false"][kind as usize - 16]);
                self.write([kind, 0, 0, 0])
            }
            18..=20 => self.operation(node, ["=", "<=", "<"][kind as usize - 18], [Place::Open, Place::Open]),
            21 => {
                self.say("not");
                let test = self.boolean(p, Place::Tight);
                self.write([21, test, 0, 0])
            }
            _ => {
                let left = self.boolean(p, Place::Open);
                self.say("and");
                let right = self.boolean(q, Place::Joined);
                self.write([22, left, right, 0])
            }
        }
    }

    /// Of two arithmetic operands.
    fn operation(&mut self, node: u32, sign: &str, [left, right]: [Place; 2]) -> u32 {
        let [kind, p, q, _] = frame(self.program, node as usize);
        let left = self.arithmetic(p, left);
        self.say(sign);
        let right = self.arithmetic(q, right);
        self.write([kind, left, right, 0])
    }
}

/// The text of tokens: blanks and newlines part two words, and stand anywhere else where they like.
pub fn text(random: &mut Random, tokens: &[impl AsRef<[u8]>]) -> Vec<u8> {
    let most = random.pick(&[0, 1, 5]);
    let mut text = vec![];
    blanks(random, &mut text, 0, most);
    for token in tokens {
        let (token, last) = (token.as_ref(), text.last());
        let two_words = last.is_some_and(u8::is_ascii_alphanumeric) && token[0].is_ascii_alphanumeric();
        if two_words {
            blanks(random, &mut text, 1, most.max(1));
        }
        text.extend(token);
        blanks(random, &mut text, 0, most);
    }
    text
}

fn blanks(random: &mut Random, text: &mut Vec<u8>, least: usize, most: usize) {
    for _ in 0..random.from(least, most) {
        text.push(random.pick(b"  \n"));
    }
}

/// One fault in a byte: changed, made a capital, dropped, doubled, put in, or two of them the other way round.
pub fn damage_byte(random: &mut Random, text: &mut Vec<u8>) {
    const STRAY: &[u8] = b" \n\r\t\0\x0b\x80\xff;:=<()[],+-*/%0123456789abcdefhiklnoprstuvwAVS_.>!{}";
    let any = random.word() as u8;
    let stray = if random.once_in(8) { any } else { random.pick(STRAY) };
    if text.is_empty() {
        return text.push(stray);
    }
    let place = random.below(text.len());
    match random.below(7) {
        0 | 1 => text[place] = stray,
        2 => {
            text.remove(place);
        }
        3 => text.insert(place, text[place]),
        4 => text.insert(place, stray),
        5 => text[place].make_ascii_uppercase(),
        _ => {
            let next = (place + 1).min(text.len() - 1);
            text.swap(place, next);
        }
    }
}

/// All tokens but numbers and variables, and some that are none.
const TOKENS: [&str; 40] = [
    "skip", "if", "then", "else", "end", "while", "do", "choose", "true", "false", "not", "and", "or", ";", ":=", "+",
    "-", "*", "/", "%", "(", ")", "[", "]", ",", "=", "<=", "<", ">", "==", ":", "<>", "v0", "v31", "v32", "7", "0",
    "00", "v", "e",
];

/// One token dropped, doubled, another one, or two the other way round.
pub fn damage_token(random: &mut Random, tokens: &mut Vec<String>) {
    let place = random.below(tokens.len());
    match random.below(5) {
        0 => {
            tokens.remove(place);
        }
        1 => tokens.insert(place, tokens[place].clone()),
        2 => tokens.insert(place, random.pick(&TOKENS).into()),
        3 => tokens[place] = random.pick(&TOKENS).into(),
        _ => {
            let other = random.below(tokens.len());
            tokens.swap(place, other);
        }
    }
}

/// Numbers and variables at their limits and just over, some with more letters or digits behind.
const EDGES: [&str; 28] = [
    "0",
    "00",
    "01",
    "007",
    "9",
    "10",
    "2147483646",
    "2147483647",
    "2147483648",
    "2147483650",
    "2147483700",
    "2200000000",
    "21474836470",
    "3000000000",
    "4294967295",
    "4294967296",
    "42949672960",
    "18446744073709551616",
    "v0",
    "v00",
    "v01",
    "v9",
    "v31",
    "v32",
    "v40",
    "v310",
    "v4294967296",
    "1v0",
];

/// One number or variable gives way to one at the edge.
pub fn to_the_edge(random: &mut Random, tokens: &mut [String]) {
    let of_digits: Vec<usize> =
        (0..tokens.len()).filter(|&i| tokens[i].ends_with(|c: char| c.is_ascii_digit())).collect();
    if of_digits.is_empty() {
        return;
    }
    let token = &mut tokens[random.pick(&of_digits)];
    // Mostly a variable for a variable, so that the rest still fits.
    let same = |edge: &&str| edge.starts_with('v') == token.starts_with('v');
    let edges: Vec<&str> = EDGES.into_iter().filter(same).collect();
    *token = if random.once_in(10) { random.pick(&EDGES) } else { random.pick(&edges) }.into();
    if random.once_in(12) {
        token.push(random.pick(b"0aAx_") as char);
    }
}
