// Deliberate faults in the oracle. The comparison must find each of them.

pub struct Edit {
    /// What the mutant does wrong.
    says: &'static str,
    file: &'static str,
    from: &'static str,
    to: &'static str,
}

/// A depot's loop, which several faults replace.
const EACH_CREW: &str = "    for (store, row) in stores.iter_mut().zip(rows) {
        *row = row_of(program.run(start, store, fuel));
    }";

pub const EDITS: &[Edit] = &[
    // The four of "Easy ways to get it wrong".
    Edit {
        says: "the closing goto is missing when the else branch is empty",
        file: "compile.rs",
        from: "            let goto = code.len();
            code.push([middle, GOTO, 0, 0]);
",
        to: "            if matches!(nodes[no], Node::Skip) {
                code[ifnot][3] = middle;
                return middle;
            }
            let goto = code.len();
            code.push([middle, GOTO, 0, 0]);
",
    },
    Edit {
        says: "the ifnot's target is shifted when the then branch is empty",
        file: "compile.rs",
        from: "            code[ifnot][3] = middle + 1;
            code[goto][3] = end;",
        to: "            code[ifnot][3] = middle + u32::from(!matches!(nodes[yes], Node::Skip));
            code[goto][3] = end;",
    },
    Edit {
        says: "fuel is tested before the finish, so that exact fuel fails",
        file: "code.rs",
        from: "        loop {
            // \"A label",
        to: "        loop {
            if steps == fuel {
                return out_of_fuel(label, steps);
            }
            // \"A label",
    },
    Edit {
        says: "a label outside the code is a refusal",
        file: "code.rs",
        from: "return finished(label, steps);",
        to: "return if self.code.iter().any(|last| last.label + 1 == label) || self.code.is_empty() {
                    finished(label, steps)
                } else {
                    super::answer::refused(Refusal { number: 13, place: 0 })
                };",
    },
    Edit {
        says: "the jump that closes a loop pass is not charged",
        file: "source.rs",
        from: "                self.statement(body)?;
                self.unit()?;",
        to: "                self.statement(body)?;",
    },
    Edit {
        says: "the jump after a then branch is not charged",
        file: "source.rs",
        from: "                    self.statement(yes)?;
                    self.unit()",
        to: "                    self.statement(yes)",
    },
    Edit {
        says: "the jump after an empty then branch is not charged",
        file: "source.rs",
        from: "                    self.statement(yes)?;
                    self.unit()",
        to: "                    self.statement(yes)?;
                    if matches!(self.nodes[yes], Node::Skip) {
                        return Ok(());
                    }
                    self.unit()",
    },
    Edit {
        says: "an assign that the fuel does not cover is made all the same",
        file: "source.rs",
        from: "                self.unit()?;
                self.store[variable] = arithmetic(self.nodes, expression, self.store);
                Ok(())",
        to: "                self.store[variable] = arithmetic(self.nodes, expression, self.store);
                self.unit()",
    },
    Edit {
        says: "a source run that has spent its fuel never finishes",
        file: "source.rs",
        from: "        Ok(()) => finished(0, fuel - run.left),",
        to: "        Ok(()) if run.left == 0 && fuel > 0 => out_of_fuel(0, fuel),
        Ok(()) => finished(0, fuel - run.left),",
    },
    // Values.
    Edit {
        says: "the remainder has the dividend's sign",
        file: "values.rs",
        from: "    difference(a, product(quotient(a, b), b))",
        to: "    if b == 0 { a } else { a.wrapping_rem(b) }",
    },
    Edit {
        says: "the quotient drops its fraction towards zero",
        file: "values.rs",
        from: "        towards_zero - 1",
        to: "        towards_zero",
    },
    Edit {
        says: "the quotient is rounded down for a negative dividend, whatever the divisor",
        file: "values.rs",
        from: "(a < 0) != (b < 0)",
        to: "a < 0",
    },
    Edit {
        says: "the quotient is rounded down for a negative dividend only",
        file: "values.rs",
        from: "(a < 0) != (b < 0)",
        to: "a < 0 && b > 0",
    },
    Edit {
        says: "the quotient is one less without a fraction too",
        file: "values.rs",
        from: "fraction && (a < 0) != (b < 0)",
        to: "(a < 0) != (b < 0)",
    },
    Edit {
        says: "the quotient by zero is -1 for a negative dividend",
        file: "values.rs",
        from: "        return 0;",
        to: "        return a.signum().min(0);",
    },
    Edit {
        says: "-2147483648 by -1 is 2147483647",
        file: "values.rs",
        from: "a.wrapping_div(b)",
        to: "a.saturating_div(b)",
    },
    Edit {
        says: "the remainder by zero is 0",
        file: "values.rs",
        from: "    difference(a, product(quotient(a, b), b))",
        to: "    if b == 0 { 0 } else { difference(a, product(quotient(a, b), b)) }",
    },
    Edit {
        says: "sums stop at the limits",
        file: "values.rs",
        from: "a.wrapping_add(b)",
        to: "a.saturating_add(b)",
    },
    Edit {
        says: "products keep only 31 bits",
        file: "values.rs",
        from: "a.wrapping_mul(b)",
        to: "a.wrapping_mul(b) & i32::MAX",
    },
    Edit {
        says: "less is unsigned",
        file: "expressions.rs",
        from: "value(p) < value(q)",
        to: "(value(p) as u32) < value(q) as u32",
    },
    Edit {
        says: "at most is less",
        file: "expressions.rs",
        from: "value(p) <= value(q)",
        to: "value(p) < value(q)",
    },
    // The table check and its order.
    Edit {
        says: "refusal 6 comes before 5",
        file: "table.rs",
        from: "    if child_not_below(used, words, node) {
        return refuse(5, node);
    }
    if child_of_wrong_class(used, words, table) {
        return refuse(6, node);
    }",
        to: "    let known = |i: usize| table.get(4 * words[i] as usize).is_some();
    if (0..3).any(|i| match used[i] {
        Word::Child(class) => known(i) && class_at(table, words[i] as usize) != Some(class),
        _ => false,
    }) {
        return refuse(6, node);
    }
    if child_not_below(used, words, node) {
        return refuse(5, node);
    }",
    },
    Edit {
        says: "refusal 4 comes before 3",
        file: "table.rs",
        from: "    if unused_word_set(used, words) {",
        to: "    if variable_too_high(used, words) {
        return refuse(4, node);
    }
    if unused_word_set(used, words) {",
    },
    Edit {
        says: "the lowest number of all nodes comes first",
        file: "table.rs",
        from: "    for node in 0..count {
        check_node(table, node)?;
    }
    let root",
        to: "    let faults = (0..count).filter_map(|node| check_node(table, node).err());
    if let Some(fault) = faults.min_by_key(|fault| (fault.number, fault.place)) {
        return Err(fault);
    }
    let root",
    },
    Edit {
        says: "refusal 8 comes before 7",
        file: "table.rs",
        from: "    let root = count - 1;",
        to: "    let root = count - 1;
    if let Some(node) = lowest_not_child_once(table) {
        return refuse(8, node);
    }",
    },
    Edit {
        says: "a child named twice by one parent counts once",
        file: "table.rs",
        from: "        for &child in children(table, node) {
            named[child as usize] += 1;",
        to: "        let mut last = u32::MAX;
        for &child in children(table, node) {
            named[child as usize] += usize::from(child != last);
            last = child;",
    },
    Edit {
        says: "a node that nobody names passes",
        file: "table.rs",
        from: "named[node] != 1",
        to: "named[node] > 1",
    },
    Edit {
        says: "a node named three times passes",
        file: "table.rs",
        from: "named[node] != 1",
        to: "named[node] % 2 != 1",
    },
    Edit {
        says: "nodes below 32 are not searched",
        file: "table.rs",
        from: "(0..count - 1).find",
        to: "(32..count - 1).find",
    },
    Edit {
        says: "nodes from 992 up are not searched",
        file: "table.rs",
        from: "(0..count - 1).find",
        to: "(0..(count - 1).min(992)).find",
    },
    Edit {
        says: "the place of 8 is the first node of its 32",
        file: "table.rs",
        from: "        return refuse(8, node);",
        to: "        return refuse(8, node / 32 * 32);",
    },
    Edit {
        says: "depth follows the last child",
        file: "table.rs",
        from: "below.max().unwrap_or(0)",
        to: "below.last().unwrap_or(0)",
    },
    Edit {
        says: "depth 257 passes",
        file: "table.rs",
        from: "pub const MOST_DEPTH: u32 = 256;",
        to: "pub const MOST_DEPTH: u32 = 257;",
    },
    Edit {
        says: "depth 256 is too deep",
        file: "table.rs",
        from: "depth(table) > MOST_DEPTH",
        to: "depth(table) >= MOST_DEPTH",
    },
    Edit {
        says: "depth counts statements only",
        file: "table.rs",
        from: "        let below = children(table, node)",
        to: "        if class_at(table, node) != Some(Class::Statement) {
            continue;
        }
        let below = children(table, node)",
    },
    Edit {
        says: "1,025 nodes pass",
        file: "table.rs",
        from: "table.len() > 4 * MOST_NODES",
        to: "table.len() > 4 * (MOST_NODES + 1)",
    },
    Edit {
        says: "the last word of a while may be anything",
        file: "table.rs",
        from: "36 => [B, S, Unused],",
        to: "36 => [B, S, Number],",
    },
    Edit {
        says: "variable 31 is too high",
        file: "table.rs",
        from: "words[i] as usize >= VARIABLES",
        to: "words[i] as usize >= VARIABLES - 1",
    },
    // Compilation.
    Edit {
        says: "the end label is not compared with the limit",
        file: "compile.rs",
        from: "    if end > LAST_TARGET {",
        to: "    if end > u32::MAX - 1 {",
    },
    Edit {
        says: "refusal 12 comes before 11",
        file: "compile.rs",
        from: "    if end > LAST_TARGET {",
        to: "    if room.len() < 4 * code.len() {
        return refuse(12, 0);
    }
    if end > LAST_TARGET {",
    },
    Edit {
        says: "the room is compared with the nodes, not the instructions",
        file: "compile.rs",
        from: "room.len() < 4 * code.len()",
        to: "room.len() < 4 * (nodes.len() - 1)",
    },
    Edit {
        says: "the rest of the room is cleared",
        file: "compile.rs",
        from: "    Ok(done(end, code.len() as u32))",
        to: "    room[4 * code.len()..].fill(0);
    Ok(done(end, code.len() as u32))",
    },
    // Code.
    Edit {
        says: "the place of 13 is the label",
        file: "code.rs",
        from: "_ => return refuse(13, position),",
        to: "_ => return refuse(13, label as usize),",
    },
    Edit {
        says: "labels are compared before fields, for the whole code",
        file: "code.rs",
        from: "    let mut instructions: Vec<Instruction> =",
        to: "    for position in 1..code.len() / 4 {
        if code[4 * position] <= code[4 * position - 4] {
            return refuse(13, position);
        }
    }
    let mut instructions: Vec<Instruction> =",
    },
    Edit {
        says: "two instructions may bear one label",
        file: "code.rs",
        from: "before.label < label",
        to: "before.label <= label",
    },
    Edit {
        says: "label 65,535 passes",
        file: "code.rs",
        from: "label <= LAST_LABEL",
        to: "label <= LAST_LABEL + 1",
    },
    Edit {
        says: "a goto's x may be anything",
        file: "code.rs",
        from: "GOTO if x == 0 && y <= LAST_TARGET",
        to: "GOTO if y <= LAST_TARGET",
    },
    Edit {
        says: "target 65,535 is refused",
        file: "code.rs",
        from: "GOTO if x == 0 && y <= LAST_TARGET",
        to: "GOTO if x == 0 && y < LAST_TARGET",
    },
    Edit {
        says: "code is judged before the start label",
        file: "code.rs",
        from: "    if start > LAST_TARGET {
        return refuse(11, 0);
    }
    let code = decode(table, code)?;",
        to: "    let code = decode(table, code)?;
    if start > LAST_TARGET {
        return refuse(11, 0);
    }",
    },
    Edit {
        says: "the start label is judged before the store",
        file: "code.rs",
        from: "    let store = store(values)?;
    if start > LAST_TARGET {
        return refuse(11, 0);
    }",
        to: "    if start > LAST_TARGET {
        return refuse(11, 0);
    }
    let store = store(values)?;",
    },
    Edit {
        says: "a jump to its own label is no step",
        file: "code.rs",
        from: "                Operation::Goto { target } => target,",
        to: "                Operation::Goto { target } if target == label => return finished(label, steps),
                Operation::Goto { target } => target,",
    },
    Edit {
        says: "a run goes to the next instruction over a gap",
        file: "code.rs",
        from: "                    store[variable] = arithmetic(&self.nodes, expression, store);
                    label + 1",
        to: "                    store[variable] = arithmetic(&self.nodes, expression, store);
                    self.code.get(position as usize + 1).map_or(label + 1, |next| next.label)",
    },
    // Depots.
    Edit {
        says: "a crew's part begins one value late, the last one's at its place",
        file: "depot.rs",
        from: "    let (stores, _) = stores.as_chunks_mut();
    let (rows, _) = room.as_chunks_mut();
    for (store, row) in stores.iter_mut().zip(rows) {
        *row = row_of(program.run(start, store, fuel));
    }",
        to: "    let last = stores.len().saturating_sub(VARIABLES);
    let (rows, _) = room.as_chunks_mut();
    for (crew, row) in rows.iter_mut().take(stores.len() / VARIABLES).enumerate() {
        let part = &mut stores[(VARIABLES * crew + 1).min(last)..][..VARIABLES];
        *row = row_of(program.run(start, part.try_into().unwrap(), fuel));
    }",
    },
    Edit {
        says: "the crews stand in the room in reverse order",
        file: "depot.rs",
        from: "stores.iter_mut().zip(rows)",
        to: "stores.iter_mut().rev().zip(rows)",
    },
    Edit {
        says: "the last crew is left out",
        file: "depot.rs",
        from: "    for (store, row) in stores.iter_mut().zip(rows) {",
        to: "    let others = stores.len().saturating_sub(1);
    for (store, row) in stores[..others].iter_mut().zip(rows) {",
    },
    Edit {
        says: "a crew that is out of fuel ends the depot",
        file: "depot.rs",
        from: EACH_CREW,
        to: "    for (store, row) in stores.iter_mut().zip(rows) {
        *row = row_of(program.run(start, store, fuel));
        if row[0] == 1 {
            break;
        }
    }",
    },
    Edit {
        says: "the crews share the fuel",
        file: "depot.rs",
        from: EACH_CREW,
        to: "    let mut left = fuel;
    for (store, row) in stores.iter_mut().zip(rows) {
        *row = row_of(program.run(start, store, left));
        left -= row[2];
    }",
    },
    Edit {
        says: "a crew begins where the one before it ended",
        file: "depot.rs",
        from: EACH_CREW,
        to: "    let mut label = start;
    for (store, row) in stores.iter_mut().zip(rows) {
        *row = row_of(program.run(label, store, fuel));
        label = row[1];
    }",
    },
    Edit {
        says: "the stores stay as they were",
        file: "depot.rs",
        from: "program.run(start, store, fuel)",
        to: "program.run(start, &mut store.clone(), fuel)",
    },
    Edit {
        says: "the verdict words are swapped",
        file: "depot.rs",
        from: "verdict == OUT_OF_FUEL",
        to: "verdict != OUT_OF_FUEL",
    },
    Edit {
        says: "the verdict words are those of an answer",
        file: "depot.rs",
        from: "u32::from(verdict == OUT_OF_FUEL)",
        to: "verdict",
    },
    Edit {
        says: "label and steps are swapped",
        file: "depot.rs",
        from: "label, steps]
}",
        to: "steps, label]
}",
    },
    Edit {
        says: "the answer tells the crews",
        file: "depot.rs",
        from: "    Ok(done(0, 0))",
        to: "    Ok(done(0, stores.len() as u32))",
    },
    Edit {
        says: "the rest of a depot's room is cleared",
        file: "depot.rs",
        from: "    Ok(done(0, 0))",
        to: "    room[ROW * stores.len()..].fill(0);
    Ok(done(0, 0))",
    },
    Edit {
        says: "without crews the table is not judged",
        file: "depot.rs",
        from: "    let nodes = accepted(table)?;
",
        to: "    let nodes = if stores.is_empty() { vec![] } else { accepted(table)? };
",
    },
    Edit {
        says: "without crews the start label is not judged",
        file: "depot.rs",
        from: "start > LAST_TARGET",
        to: "start > LAST_TARGET && !stores.is_empty()",
    },
    Edit {
        says: "without crews the code is not judged",
        file: "depot.rs",
        from: "    let code = decode(table, code)?;
",
        to: "    if stores.is_empty() {
        return Ok(done(0, 0));
    }
    let code = decode(table, code)?;
",
    },
    Edit {
        says: "513 crews pass",
        file: "depot.rs",
        from: "MOST_CREWS: usize = 512",
        to: "MOST_CREWS: usize = 513",
    },
    Edit {
        says: "512 crews are too many",
        file: "depot.rs",
        from: "stores.len() > VARIABLES * MOST_CREWS",
        to: "stores.len() >= VARIABLES * MOST_CREWS",
    },
    Edit {
        says: "stores of any length up to the most pass",
        file: "depot.rs",
        from: "!stores.len().is_multiple_of(VARIABLES) || ",
        to: "",
    },
    Edit {
        says: "two words a crew are room enough",
        file: "depot.rs",
        from: "room.len() < ROW *",
        to: "room.len() < (ROW - 1) *",
    },
    Edit {
        says: "the room must have a word to spare",
        file: "depot.rs",
        from: "room.len() < ROW *",
        to: "room.len() <= ROW *",
    },
    Edit {
        says: "the stores' length is judged before the table",
        file: "depot.rs",
        from: "    let nodes = accepted(table)?;
    if bad_length(stores) {
        return refuse(10, 0);
    }
",
        to: "    if bad_length(stores) {
        return refuse(10, 0);
    }
    let nodes = accepted(table)?;
",
    },
    Edit {
        says: "in a depot 11 comes before 10",
        file: "depot.rs",
        from: "    if bad_length(stores) {
        return refuse(10, 0);
    }
    if start > LAST_TARGET {
        return refuse(11, 0);
    }
",
        to: "    if start > LAST_TARGET {
        return refuse(11, 0);
    }
    if bad_length(stores) {
        return refuse(10, 0);
    }
",
    },
    Edit {
        says: "in a depot 13 comes before 11",
        file: "depot.rs",
        from: "    if start > LAST_TARGET {
        return refuse(11, 0);
    }
    let code = decode(table, code)?;
",
        to: "    let code = decode(table, code)?;
    if start > LAST_TARGET {
        return refuse(11, 0);
    }
",
    },
    Edit {
        says: "16 comes before 10",
        file: "depot.rs",
        from: "    if bad_length(stores) {
        return refuse(10, 0);
    }
",
        to: "    if room_too_small(stores, room) {
        return refuse(16, 0);
    }
    if bad_length(stores) {
        return refuse(10, 0);
    }
",
    },
    Edit {
        says: "16 comes before 11",
        file: "depot.rs",
        from: "    if start > LAST_TARGET {
        return refuse(11, 0);
    }
",
        to: "    if room_too_small(stores, room) {
        return refuse(16, 0);
    }
    if start > LAST_TARGET {
        return refuse(11, 0);
    }
",
    },
    Edit {
        says: "16 comes before 13",
        file: "depot.rs",
        from: "    let code = decode(table, code)?;
",
        to: "    if room_too_small(stores, room) {
        return refuse(16, 0);
    }
    let code = decode(table, code)?;
",
    },
    Edit {
        says: "the room is cleared before 16 is told",
        file: "depot.rs",
        from: "        return refuse(16, 0);",
        to: "        room.fill(0);
        return refuse(16, 0);",
    },
    Edit {
        says: "the crews are run before 16 is told",
        file: "depot.rs",
        from: "        return refuse(16, 0);",
        to: "        let program = Program::new(nodes, code);
        for store in stores.as_chunks_mut().0 {
            program.run(start, store, fuel);
        }
        return refuse(16, 0);",
    },
    // Text.
    Edit {
        says: "upper-case digits are accepted",
        file: "text.rs",
        from: "        b'a'..=b'f' => Some(u32::from(byte - b'a') + 10),",
        to: "        b'a'..=b'f' => Some(u32::from(byte - b'a') + 10),
        b'A'..=b'F' => Some(u32::from(byte - b'A') + 10),",
    },
    Edit {
        says: "the last newline may be missing",
        file: "text.rs",
        from: "    for (number, line) in text.chunks(LINE).enumerate() {",
        to: "    let whole = [text, b\"\\n\"].concat();
    let text = if text.len() % LINE == LINE - 1 { &whole } else { text };
    for (number, line) in text.chunks(LINE).enumerate() {",
    },
    Edit {
        says: "a 1,025th line passes",
        file: "text.rs",
        from: "number < MOST_FRAMES",
        to: "number <= MOST_FRAMES",
    },
    Edit {
        says: "bytes after 1,024 lines are not looked at",
        file: "text.rs",
        from: "    for (number, line) in text.chunks(LINE).enumerate() {",
        to: "    let text = &text[..text.len().min(LINE * MOST_FRAMES)];
    for (number, line) in text.chunks(LINE).enumerate() {",
    },
    Edit {
        says: "the room holds the lines before a bad one",
        file: "text.rs",
        from: "            _ => return refuse(14, number),",
        to: "            _ => {
                let count = words.len().min(room.len());
                room[..count].copy_from_slice(&words[..count]);
                return refuse(14, number);
            }",
    },
    Edit {
        says: "refusal 15 comes before 14 in reading",
        file: "text.rs",
        from: "    let mut words = Vec::new();",
        to: "    if room.len() < 4 * (text.len() / LINE) {
        return refuse(15, 0);
    }
    let mut words = Vec::new();",
    },
    Edit {
        says: "the place in writing goes past 1,024",
        file: "text.rs",
        from: "frames.min(MOST_FRAMES)",
        to: "frames",
    },
    Edit {
        says: "unfinished frames are left out in writing",
        file: "text.rs",
        from: "!words.len().is_multiple_of(4) || words.len() > 4 * MOST_FRAMES",
        to: "frames > MOST_FRAMES",
    },
    // Typed rules: how they group.
    Edit {
        says: "* and + are on one level",
        file: "rule.rs",
        from: "        let mut left = self.term()?;
        loop {
            let kind = match self.peek() {
                Some(b'+') => SUM,
                Some(b'-') => DIFFERENCE,
                _ => return Ok(left),
            };
            self.past_sign();
            let right = self.term()?;",
        to: "        let mut left = self.factor()?;
        loop {
            let kind = match self.peek() {
                Some(b'+') => SUM,
                Some(b'-') => DIFFERENCE,
                Some(b'*') => PRODUCT,
                Some(b'/') => QUOTIENT,
                Some(b'%') => REMAINDER,
                _ => return Ok(left),
            };
            self.past_sign();
            let right = self.factor()?;",
    },
    Edit {
        says: "a difference groups to the right",
        file: "rule.rs",
        from: "            let right = self.term()?;",
        to: "            let right = if kind == DIFFERENCE { self.arithmetic()? } else { self.term()? };",
    },
    Edit {
        says: "a product groups to the right",
        file: "rule.rs",
        from: "            let right = self.factor()?;",
        to: "            let right = self.term()?;",
    },
    Edit {
        says: "a quotient is read as a remainder",
        file: "rule.rs",
        from: "Some(b'/') => QUOTIENT",
        to: "Some(b'/') => REMAINDER",
    },
    Edit {
        says: "a row groups to the left",
        file: "rule.rs",
        from: "        for i in (before..self.rows.len()).rev() {
            rest = self.node(SEQUENCE, [self.rows[i], rest]);
        }",
        to: "        self.rows.push(rest);
        rest = self.rows[before];
        for i in before + 1..self.rows.len() {
            rest = self.node(SEQUENCE, [rest, self.rows[i]]);
        }",
    },
    Edit {
        says: "the statements of the row outside are joined inside",
        file: "rule.rs",
        from: "        for i in (before..self.rows.len()).rev() {",
        to: "        let before = before.saturating_sub(1);
        for i in (before..self.rows.len()).rev() {",
    },
    Edit {
        says: "and groups to the right",
        file: "rule.rs",
        from: "            let right = self.negation()?;",
        to: "            let right = self.boolean()?;",
    },
    Edit {
        says: "not reaches over an and",
        file: "rule.rs",
        from: "        let test = self.test()?;",
        to: "        let test = self.boolean()?;",
    },
    Edit {
        says: "not not is accepted",
        file: "rule.rs",
        from: "        let test = self.test()?;",
        to: "        let test = self.negation()?;",
    },
    Edit {
        says: "the sides of a choose are the other way round",
        file: "rule.rs",
        from: "[test, yes, no]))
    }

    /// \"Joined by",
        to: "[test, no, yes]))
    }

    /// \"Joined by",
    },
    // Levels.
    Edit {
        says: "257 levels pass",
        file: "rule.rs",
        from: "MOST_NESTED: u32 = 256",
        to: "MOST_NESTED: u32 = 257",
    },
    Edit {
        says: "256 levels do not pass",
        file: "rule.rs",
        from: "MOST_NESTED: u32 = 256",
        to: "MOST_NESTED: u32 = 255",
    },
    Edit {
        says: "a choose and its brackets are two levels",
        file: "rule.rs",
        from: "        self.word(b\"choose\")?;
        self.sign(b'(')?;
        let test = self.boolean()?;
        self.sign(b',')?;
        let yes = self.arithmetic()?;
        self.sign(b',')?;
        let no = self.arithmetic()?;
        self.sign(b')')?;",
        to: "        self.word(b\"choose\")?;
        self.open()?;
        self.sign(b'(')?;
        let test = self.boolean()?;
        self.sign(b',')?;
        let yes = self.arithmetic()?;
        self.sign(b',')?;
        let no = self.arithmetic()?;
        self.sign(b')')?;
        self.close();",
    },
    Edit {
        says: "a choose may be a 257th level",
        file: "rule.rs",
        from: "        self.open()?;
        self.word(b\"choose\")?;",
        to: "        self.nested += 1;
        self.word(b\"choose\")?;",
    },
    Edit {
        says: "the test of an if is outside its level",
        file: "rule.rs",
        from: "        self.open()?;
        self.word(b\"if\")?;
        let test = self.boolean()?;
        self.word(b\"then\")?;",
        to: "        if self.nested == MOST_NESTED {
            return Err(Stopped);
        }
        self.word(b\"if\")?;
        let test = self.boolean()?;
        self.word(b\"then\")?;
        self.open()?;",
    },
    Edit {
        says: "the test of a while is outside its level",
        file: "rule.rs",
        from: "        self.open()?;
        self.word(b\"while\")?;
        let test = self.boolean()?;
        self.word(b\"do\")?;",
        to: "        if self.nested == MOST_NESTED {
            return Err(Stopped);
        }
        self.word(b\"while\")?;
        let test = self.boolean()?;
        self.word(b\"do\")?;
        self.open()?;",
    },
    Edit {
        says: "round brackets are no level",
        file: "rule.rs",
        from: "                self.open()?;
                self.sign(b'(')?;
                let inner = self.arithmetic()?;
                self.sign(b')')?;
                self.close();",
        to: "                self.sign(b'(')?;
                let inner = self.arithmetic()?;
                self.sign(b')')?;",
    },
    Edit {
        says: "square brackets are no level",
        file: "rule.rs",
        from: "                self.open()?;
                self.sign(b'[')?;
                let inner = self.boolean()?;
                self.sign(b']')?;
                self.close();",
        to: "                self.sign(b'[')?;
                let inner = self.boolean()?;
                self.sign(b']')?;",
    },
    Edit {
        says: "a level that is closed still counts",
        file: "rule.rs",
        from: "        self.nested -= 1;",
        to: "",
    },
    Edit {
        says: "the place of a bracket too many is after it",
        file: "rule.rs",
        from: "                self.open()?;
                self.sign(b'(')?;",
        to: "                self.sign(b'(')?;
                self.open()?;",
    },
    Edit {
        says: "the place of an if too many is after its word",
        file: "rule.rs",
        from: "        self.open()?;
        self.word(b\"if\")?;",
        to: "        self.word(b\"if\")?;
        self.open()?;",
    },
    Edit {
        says: "the place of a choose too many is before its bracket",
        file: "rule.rs",
        from: "        self.open()?;
        self.word(b\"choose\")?;",
        to: "        self.word(b\"choose\")?;
        self.open()?;",
    },
    // Words, numbers and signs of typed rules.
    Edit {
        says: "a leading zero is taken",
        file: "rule.rs",
        from: "number == 0 || number > (most - digit) / 10",
        to: "number > (most - digit) / 10",
    },
    Edit {
        says: "a leading zero is taken in a variable",
        file: "rule.rs",
        from: "number == 0 || number > (most - digit) / 10",
        to: "number == 0 && most == MOST_NUMBER || number > (most - digit) / 10",
    },
    Edit {
        says: "v32 is taken",
        file: "rule.rs",
        from: "LAST_VARIABLE: u32 = 31",
        to: "LAST_VARIABLE: u32 = 32",
    },
    Edit {
        says: "v31 is not taken",
        file: "rule.rs",
        from: "LAST_VARIABLE: u32 = 31",
        to: "LAST_VARIABLE: u32 = 30",
    },
    Edit {
        says: "2147483648 is taken",
        file: "rule.rs",
        from: "MOST_NUMBER: u32 = 2_147_483_647",
        to: "MOST_NUMBER: u32 = 2_147_483_648",
    },
    Edit {
        says: "2147483647 is not taken",
        file: "rule.rs",
        from: "MOST_NUMBER: u32 = 2_147_483_647",
        to: "MOST_NUMBER: u32 = 2_147_483_646",
    },
    Edit {
        says: "a number over the limit wraps",
        file: "rule.rs",
        from: "            if number == 0 || number > (most - digit) / 10 {
                return Err(Stopped);
            }
            number = 10 * number + digit;",
        to: "            if number == 0 || most == LAST_VARIABLE && number > (most - digit) / 10 {
                return Err(Stopped);
            }
            number = number.wrapping_mul(10).wrapping_add(digit);",
    },
    Edit {
        says: "a number over the limit has its place at its start",
        file: "rule.rs",
        from: "            if number == 0 || number > (most - digit) / 10 {
                return Err(Stopped);",
        to: "            if number == 0 || number > (most - digit) / 10 {
                while self.text[self.place - 1].is_ascii_digit() {
                    self.place -= 1;
                }
                return Err(Stopped);",
    },
    Edit {
        says: "a number over the limit has its place at its end",
        file: "rule.rs",
        from: "            if number == 0 || number > (most - digit) / 10 {
                return Err(Stopped);",
        to: "            if number == 0 || number > (most - digit) / 10 {
                while self.digit().is_some() {
                    self.place += 1;
                }
                return Err(Stopped);",
    },
    Edit {
        says: "two words may run together",
        file: "rule.rs",
        from: "        if self.peek().is_some_and(|byte| byte.is_ascii_alphanumeric()) {
            return Err(Stopped);
        }",
        to: "",
    },
    Edit {
        says: "a digit may follow a word at once",
        file: "rule.rs",
        from: "byte.is_ascii_alphanumeric()",
        to: "byte.is_ascii_alphabetic()",
    },
    Edit {
        says: "a letter may follow a word at once",
        file: "rule.rs",
        from: "byte.is_ascii_alphanumeric()",
        to: "byte.is_ascii_digit()",
    },
    Edit {
        says: "a bracket may not follow a word at once",
        file: "rule.rs",
        from: "byte.is_ascii_alphanumeric()",
        to: "byte.is_ascii_alphanumeric() || byte == b'('",
    },
    Edit {
        says: "capital letters are taken",
        file: "rule.rs",
        from: "self.peek() != Some(byte)",
        to: "self.peek().map(|found| found.to_ascii_lowercase()) != Some(byte)",
    },
    Edit {
        says: "a choose's bracket must follow it at once",
        file: "rule.rs",
        from: "        self.word(b\"choose\")?;
        self.sign(b'(')?;",
        to: "        self.bytes(b\"choose(\")?;
        self.blanks();",
    },
    Edit {
        says: "blanks may part := in two",
        file: "rule.rs",
        from: "        self.bytes(b\":=\")?;",
        to: "        self.sign(b':')?;
        self.bytes(b\"=\")?;",
    },
    Edit {
        says: "blanks may part <= in two",
        file: "rule.rs",
        from: "        let kind = match (first, self.peek()) {",
        to: "        self.blanks();
        let kind = match (first, self.peek()) {",
    },
    Edit {
        says: "= is read as at most",
        file: "rule.rs",
        from: "(Some(b'='), _) => EQUAL",
        to: "(Some(b'='), _) => AT_MOST",
    },
    Edit {
        says: "== is taken",
        file: "rule.rs",
        from: "            (Some(b'='), _) => EQUAL,",
        to: "            (Some(b'='), Some(b'=')) => {
                self.place += 1;
                EQUAL
            }
            (Some(b'='), _) => EQUAL,",
    },
    Edit {
        says: "a tab is a blank",
        file: "rule.rs",
        from: "Some(b' ' | b'\\n')",
        to: "Some(b' ' | b'\\n' | b'\\t')",
    },
    Edit {
        says: "a carriage return is a blank",
        file: "rule.rs",
        from: "Some(b' ' | b'\\n')",
        to: "Some(b' ' | b'\\n' | b'\\r')",
    },
    Edit {
        says: "a newline is no blank",
        file: "rule.rs",
        from: "Some(b' ' | b'\\n')",
        to: "Some(b' ')",
    },
    Edit {
        says: "no blank may stand before the first word",
        file: "rule.rs",
        from: "        self.blanks();
        self.row()?;",
        to: "        self.row()?;",
    },
    Edit {
        says: "what stands after a rule is not looked at",
        file: "rule.rs",
        from: "self.place < self.text.len()",
        to: "false",
    },
    Edit {
        says: "a rule may end in ;",
        file: "rule.rs",
        from: "            self.past_sign();
            self.rows.push(rest);",
        to: "            self.past_sign();
            if self.peek().is_none() {
                break;
            }
            self.rows.push(rest);",
    },
    Edit {
        says: "no statement at all is a skip",
        file: "rule.rs",
        from: "            Some(b'w') => self.while_do(),",
        to: "            Some(b'w') => self.while_do(),
            None if self.nodes.is_empty() => Ok(self.node(SKIP, [])),",
    },
    Edit {
        says: "an if needs no else",
        file: "rule.rs",
        from: "        self.word(b\"else\")?;
        let no = self.row()?;",
        to: "        let no = if self.text[self.place..].starts_with(b\"en\") {
            self.node(SKIP, [])
        } else {
            self.word(b\"else\")?;
            self.row()?
        };",
    },
    // The place of 17.
    Edit {
        says: "the place is one too far",
        file: "rule.rs",
        from: "refuse(17, reader.place)",
        to: "refuse(17, reader.place + 1)",
    },
    Edit {
        says: "the place is at the start of a word that breaks off",
        file: "rule.rs",
        from: "        for &byte in bytes {
            if self.peek() != Some(byte) {",
        to: "        let start = self.place;
        for &byte in bytes {
            if self.peek() != Some(byte) {
                self.place = start;",
    },
    Edit {
        says: "the place is before the blanks",
        file: "rule.rs",
        from: "refuse(17, reader.place)",
        to: "refuse(17, text[..reader.place].trim_ascii_end().len())",
    },
    Edit {
        says: "the place is counted in lines",
        file: "rule.rs",
        from: "refuse(17, reader.place)",
        to: "refuse(17, text[..reader.place].iter().filter(|&&byte| byte == b'\\n').count())",
    },
    Edit {
        says: "the place of a word with more behind it is its start",
        file: "rule.rs",
        from: "        self.bytes(word)?;
        self.end_word()",
        to: "        self.bytes(word)?;
        let end = self.place;
        self.end_word().inspect_err(|_| self.place = end - word.len())",
    },
    // The limits of a typed rule, and the order of its refusals.
    Edit {
        says: "a rule's table is not checked",
        file: "rule.rs",
        from: "    check(&table)?;",
        to: "",
    },
    Edit {
        says: "a rule of 1,025 nodes passes",
        file: "rule.rs",
        from: "    check(&table)?;",
        to: "    if table.len() != 4 * 1025 {
        check(&table)?;
    }",
    },
    Edit {
        says: "a rule of 1,024 nodes does not pass",
        file: "rule.rs",
        from: "    check(&table)?;",
        to: "    if table.len() == 4 * 1024 {
        return refuse(1, 0);
    }
    check(&table)?;",
    },
    Edit {
        says: "a rule of any number of nodes passes",
        file: "rule.rs",
        from: "    check(&table)?;",
        to: "    if table.len() <= 4 * MOST_NODES {
        check(&table)?;
    }",
    },
    Edit {
        says: "a rule of too many nodes is not in the grammar",
        file: "rule.rs",
        from: "    check(&table)?;",
        to: "    if table.len() > 4 * MOST_NODES {
        return refuse(17, text.len());
    }
    check(&table)?;",
    },
    Edit {
        says: "the place of 1 in a rule is the first node too many",
        file: "rule.rs",
        from: "    check(&table)?;",
        to: "    if table.len() > 4 * MOST_NODES {
        return refuse(1, MOST_NODES);
    }
    check(&table)?;",
    },
    Edit {
        says: "the nodes of a rule are counted in 16 bits",
        file: "rule.rs",
        from: "    check(&table)?;",
        to: "    check(&table[..table.len() % (4 * 65_536)])?;",
    },
    Edit {
        says: "a rule of depth 257 passes",
        file: "rule.rs",
        from: "    check(&table)?;",
        to: "    match check(&table) {
        Err(Refusal { number: 9, .. }) if super::table::depth(&table) == 257 => {}
        checked => checked?,
    }",
    },
    Edit {
        says: "a rule of depth 256 does not pass",
        file: "rule.rs",
        from: "    check(&table)?;",
        to: "    check(&table)?;
    if super::table::depth(&table) == 256 {
        return refuse(9, 0);
    }",
    },
    Edit {
        says: "a rule of any depth passes",
        file: "rule.rs",
        from: "    check(&table)?;",
        to: "    match check(&table) {
        Err(Refusal { number: 9, .. }) => {}
        checked => checked?,
    }",
    },
    Edit {
        says: "brackets count for the depth",
        file: "rule.rs",
        from: "    check(&table)?;",
        to: "    check(&table)?;
    let (mut open, mut most) = (0, 0);
    for byte in text {
        open += i32::from(*byte == b'(') - i32::from(*byte == b')');
        most = open.max(most);
    }
    if super::table::depth(&table) + most as u32 > 256 {
        return refuse(9, 0);
    }",
    },
    Edit {
        says: "the depth of a rule is that along first children",
        file: "rule.rs",
        from: "    check(&table)?;",
        to: "    let mut depths = vec![];
    for node in 0..table.len() / 4 {
        let first = super::table::children(&table, node).first();
        depths.push(first.map_or(1, |&child| depths[child as usize] + 1));
    }
    match check(&table) {
        Err(Refusal { number: 9, .. }) if depths.last() <= Some(&256) => {}
        checked => checked?,
    }",
    },
    Edit {
        says: "the depth of a rule counts statements only",
        file: "rule.rs",
        from: "    check(&table)?;",
        to: "    let mut depths = vec![];
    for node in 0..table.len() / 4 {
        let below = super::table::children(&table, node).iter().map(|&child| depths[child as usize]);
        let deepest: u32 = below.max().unwrap_or(0);
        depths.push(deepest + u32::from(table[4 * node] >= SKIP));
    }
    match check(&table) {
        Err(Refusal { number: 9, .. }) if depths.last() <= Some(&256) => {}
        checked => checked?,
    }",
    },
    Edit {
        says: "the place of 9 in a rule is its root",
        file: "rule.rs",
        from: "    check(&table)?;",
        to: "    match check(&table) {
        Err(Refusal { number: 9, .. }) => return refuse(9, table.len() / 4 - 1),
        checked => checked?,
    }",
    },
    Edit {
        says: "a rule that is too deep is refused 1",
        file: "rule.rs",
        from: "    check(&table)?;",
        to: "    check(&table).or_else(|refusal| refuse(1, refusal.place))?;",
    },
    Edit {
        says: "refusal 1 comes before 17",
        file: "rule.rs",
        from: "        Err(Stopped) => refuse(17, reader.place),",
        to: "        Err(Stopped) if reader.nodes.len() > MOST_NODES => refuse(1, 0),
        Err(Stopped) => refuse(17, reader.place),",
    },
    Edit {
        says: "refusal 9 comes before 17",
        file: "rule.rs",
        from: "        Err(Stopped) => refuse(17, reader.place),",
        to: "        Err(Stopped) if super::table::depth(reader.nodes.as_flattened()) > 256 => refuse(9, 0),
        Err(Stopped) => refuse(17, reader.place),",
    },
    Edit {
        says: "refusal 9 comes before 1",
        file: "rule.rs",
        from: "    check(&table)?;",
        to: "    if super::table::depth(&table) > 256 {
        return refuse(9, 0);
    }
    check(&table)?;",
    },
    Edit {
        says: "refusal 15 comes before 9",
        file: "rule.rs",
        from: "    check(&table)?;",
        to: "    if table.len() <= 4 * MOST_NODES && room.len() < table.len() {
        return refuse(15, 0);
    }
    check(&table)?;",
    },
    Edit {
        says: "refusal 15 comes before 1 in a rule",
        file: "rule.rs",
        from: "    check(&table)?;",
        to: "    if table.len() > 4 * MOST_NODES && room.len() < table.len() {
        return refuse(15, 0);
    }
    check(&table)?;",
    },
    Edit {
        says: "refusal 15 comes before 17",
        file: "rule.rs",
        from: "    let table = parse(text)?;",
        to: "    let table = match parse(text) {
        Err(_) if room.len() < nodes_of(text).len() => return refuse(15, 0),
        parsed => parsed?,
    };",
    },
    Edit {
        says: "a rule's room may be one word short",
        file: "rule.rs",
        from: "    if room.len() < table.len() {
        return refuse(15, 0);
    }
    room[..table.len()].copy_from_slice(&table);",
        to: "    if room.len() + 1 < table.len() {
        return refuse(15, 0);
    }
    let fits = table.len().min(room.len());
    room[..fits].copy_from_slice(&table[..fits]);",
    },
    Edit {
        says: "the room holds what fits of a rule refused 15",
        file: "rule.rs",
        from: "    if room.len() < table.len() {",
        to: "    if room.len() < table.len() {
        room.copy_from_slice(&table[..room.len()]);",
    },
    Edit {
        says: "the room holds what fits of a rule refused 1 or 9",
        file: "rule.rs",
        from: "    check(&table)?;",
        to: "    if let Err(refusal) = check(&table) {
        let fits = table.len().min(room.len());
        room[..fits].copy_from_slice(&table[..fits]);
        return Err(refusal);
    }",
    },
    Edit {
        says: "the room holds the nodes before the place",
        file: "rule.rs",
        from: "    let table = parse(text)?;",
        to: "    let table = parse(text).inspect_err(|_| {
        for (word, node) in room.iter_mut().zip(nodes_of(text)) {
            *word = node;
        }
    })?;",
    },
    Edit {
        says: "the room behind a rule's table is cleared",
        file: "rule.rs",
        from: "    room[..table.len()].copy_from_slice(&table);",
        to: "    room[..table.len()].copy_from_slice(&table);
    room[table.len()..].fill(0);",
    },
    Edit {
        says: "a rule's nodes are told, not its words",
        file: "rule.rs",
        from: "Ok(done(0, table.len() as u32))",
        to: "Ok(done(0, table.len() as u32 / 4))",
    },
];
