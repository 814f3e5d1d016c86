//! Programs as trees, with a constructor for each kind of document 01, and the tables of their nodes.

pub struct Tree {
    kind: u32,
    words: [Word; 3],
}

enum Word {
    Plain(u32),
    Child(Box<Tree>),
}

impl Tree {
    /// The table of the tree, children first and left to right.
    pub fn table(&self) -> Vec<u32> {
        let mut table = Vec::new();
        self.append(&mut table);
        table
    }

    pub fn nodes(&self) -> usize {
        self.table().len() / 4
    }

    fn append(&self, table: &mut Vec<u32>) -> u32 {
        let mut frame = [self.kind, 0, 0, 0];
        for (place, word) in frame[1..].iter_mut().zip(&self.words) {
            *place = match word {
                Word::Plain(word) => *word,
                Word::Child(child) => child.append(table),
            };
        }
        table.extend(frame);
        (table.len() / 4 - 1) as u32
    }
}

const NONE: Word = Word::Plain(0);

fn plain(word: u32) -> Word {
    Word::Plain(word)
}

fn child(tree: Tree) -> Word {
    Word::Child(Box::new(tree))
}

fn tree(kind: u32, words: [Word; 3]) -> Tree {
    Tree { kind, words }
}

pub fn number(value: i32) -> Tree {
    tree(1, [plain(value as u32), NONE, NONE])
}

pub fn variable(variable: u32) -> Tree {
    tree(2, [plain(variable), NONE, NONE])
}

pub const SUM: u32 = 3;
pub const DIFFERENCE: u32 = 4;
pub const PRODUCT: u32 = 5;
pub const QUOTIENT: u32 = 6;
pub const REMAINDER: u32 = 7;

/// One of the five operations above.
pub fn operation(kind: u32, left: Tree, right: Tree) -> Tree {
    tree(kind, [child(left), child(right), NONE])
}

pub fn choose(test: Tree, yes: Tree, no: Tree) -> Tree {
    tree(8, [child(test), child(yes), child(no)])
}

pub fn truth(value: bool) -> Tree {
    tree(if value { 16 } else { 17 }, [NONE, NONE, NONE])
}

pub const EQUAL: u32 = 18;
pub const AT_MOST: u32 = 19;
pub const LESS: u32 = 20;

/// One of the three comparisons above.
pub fn comparison(kind: u32, left: Tree, right: Tree) -> Tree {
    tree(kind, [child(left), child(right), NONE])
}

pub fn not(test: Tree) -> Tree {
    tree(21, [child(test), NONE, NONE])
}

pub fn and(left: Tree, right: Tree) -> Tree {
    tree(22, [child(left), child(right), NONE])
}

pub fn skip() -> Tree {
    tree(32, [NONE, NONE, NONE])
}

pub fn assign(variable: u32, value: Tree) -> Tree {
    tree(33, [plain(variable), child(value), NONE])
}

pub fn sequence(first: Tree, second: Tree) -> Tree {
    tree(34, [child(first), child(second), NONE])
}

pub fn if_else(test: Tree, yes: Tree, no: Tree) -> Tree {
    tree(35, [child(test), child(yes), child(no)])
}

pub fn while_do(test: Tree, body: Tree) -> Tree {
    tree(36, [child(test), child(body), NONE])
}

/// The pieces in sequence, joined in halves so that many of them stay shallow. There is at least one.
pub fn sequence_of(mut pieces: Vec<Tree>) -> Tree {
    if pieces.len() == 1 {
        return pieces.remove(0);
    }
    let rest = pieces.split_off(pieces.len() / 2);
    sequence(sequence_of(pieces), sequence_of(rest))
}
