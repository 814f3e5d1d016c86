//! How often each answer occurred, and how often two grounds for a refusal competed; and what ought to occur.

use crate::case::{Buffer, Call, Case, Outcome};
use crate::oracle::answer::{Refusal, DONE, FINISHED, OUT_OF_FUEL, REFUSED};
use crate::oracle::depot::{MOST_CREWS, ROW};
use crate::oracle::rule;
use crate::oracle::table::VARIABLES;
use crate::rivals::{rivals, Where};
use crate::typed::{self, RULES};
use std::collections::BTreeMap;
use std::fmt::{self, Display, Formatter};

/// Call, verdict and number of an answer.
type Kind = (Call, u32, u32);
/// Where the rival stood, the number told, the rival's number.
type Contest = (Where, u32, u32);

/// The last number of a refusal.
const LAST_NUMBER: u32 = 17;

/// What some of the depots that are done ought to be.
const DEPOTS: [&str; 4] = ["no crews", "one crew", "512 crews", "crews finished and crews out of fuel"];

#[derive(Default)]
pub struct Tally {
    answers: BTreeMap<Kind, usize>,
    contests: BTreeMap<Contest, usize>,
    depots: [usize; DEPOTS.len()],
    rules: [usize; RULES.len()],
}

impl Tally {
    pub fn count(&mut self, case: &Case, outcome: &Outcome) {
        let [verdict, number, place, ..] = outcome.answer;
        *self.answers.entry((case.call(), verdict, number)).or_default() += 1;
        if verdict == REFUSED {
            let told = Refusal { number, place: place as usize };
            for (place, rival) in rivals(case, told) {
                *self.contests.entry((place, number, rival)).or_default() += 1;
            }
        }
        match (case, &outcome.after) {
            (_, Buffer::Depot { stores, room }) if verdict != REFUSED => {
                self.count_depot(stores.len() / VARIABLES, room);
            }
            (Case::ReadRule { text, room }, _) => {
                let is = typed::examples(text, room, &rule::nodes_of(text), outcome);
                add_up(&mut self.rules, is);
            }
            _ => {}
        }
    }

    fn count_depot(&mut self, crews: usize, room: &[u32]) {
        let some = |wanted| room.chunks_exact(ROW).take(crews).any(|row| row[0] == wanted);
        add_up(&mut self.depots, [crews == 0, crews == 1, crews == MOST_CREWS, some(0) && some(1)]);
    }

    /// How many cases were counted.
    pub fn cases(&self) -> usize {
        self.answers.values().sum()
    }

    /// What ought to have occurred at least so often and did not, and what occurred and never should.
    pub fn complaints(&self, least: usize) -> Vec<String> {
        let mut complaints = Vec::new();
        for kind in expected_answers() {
            let times = self.answers.get(&kind).copied().unwrap_or(0);
            if times < least {
                complaints.push(format!("{} occurred {times} times, fewer than {least}", describe(&kind)));
            }
        }
        for contest in expected_contests() {
            let times = self.contests.get(&contest).copied().unwrap_or(0);
            if times == 0 {
                let (place, told, rival) = contest;
                complaints.push(format!("refusal {told} never competed with {rival} ({})", place_name(place)));
            }
        }
        for (name, _) in DEPOTS.iter().zip(self.depots).filter(|(_, times)| *times == 0) {
            complaints.push(format!("no depot was done with {name}"));
        }
        for (name, _) in RULES.iter().zip(self.rules).filter(|(_, times)| *times == 0) {
            complaints.push(format!("no typed rule had {name}"));
        }
        let expected = expected_answers();
        for kind in self.answers.keys().filter(|kind| !expected.contains(kind)) {
            complaints.push(format!("{} is no answer of that call", describe(kind)));
        }
        complaints
    }
}

fn add_up<const N: usize>(counts: &mut [usize; N], is: [bool; N]) {
    for (count, is) in counts.iter_mut().zip(is) {
        *count += usize::from(is);
    }
}

/// "The table check gives 1 to 9; compiling 1 to 9, 11, 12; a source run 1 to 10; a code run 1 to 11 and 13; reading and
/// writing text 14, 15." A depot adds 16 to those of a code run; reading a typed rule gives 17, 1, 9, 15.
fn expected_answers() -> Vec<Kind> {
    let mut expected = Vec::new();
    for call in Call::ALL {
        let (verdicts, numbers): (&[u32], Vec<u32>) = match call {
            Call::Check => (&[DONE], (1..=9).collect()),
            Call::Compile => (&[DONE], (1..=9).chain(11..=12).collect()),
            Call::RunSource => (&[FINISHED, OUT_OF_FUEL], (1..=10).collect()),
            Call::RunCode => (&[FINISHED, OUT_OF_FUEL], (1..=11).chain([13]).collect()),
            Call::RunDepot => (&[DONE], (1..=11).chain([13, 16]).collect()),
            Call::ReadText | Call::WriteText => (&[DONE], vec![14, 15]),
            Call::ReadRule => (&[DONE], vec![17, 1, 9, 15]),
        };
        expected.extend(verdicts.iter().map(|&verdict| (call, verdict, 0)));
        expected.extend(numbers.iter().map(|&number| (call, REFUSED, number)));
    }
    expected
}

fn expected_contests() -> Vec<Contest> {
    let mut expected = Vec::new();
    let mut pairs = |place, told: &[u32], rivals: &[u32]| {
        for &told in told {
            expected.extend(rivals.iter().map(|&rival| (place, told, rival)));
        }
    };
    // At one node the lower number wins; 2 leaves nothing else to find there.
    pairs(Where::SameNode, &[3], &[4, 5, 6]);
    pairs(Where::SameNode, &[4], &[5, 6]);
    pairs(Where::SameNode, &[5], &[6]);
    // Of several nodes the lower node wins, also over a lower number.
    pairs(Where::LaterNode, &[2, 3, 4, 5, 6], &[2, 3, 4, 5, 6]);
    pairs(Where::Elsewhere, &[2, 3, 4, 5, 6], &[7, 8, 9]);
    pairs(Where::Elsewhere, &[7], &[8, 9]);
    pairs(Where::Elsewhere, &[8], &[9]);
    pairs(Where::Elsewhere, &[1, 2, 3, 4, 5, 6, 7, 8, 9], &[10, 11, 13]);
    pairs(Where::Elsewhere, &[10], &[11, 13]);
    pairs(Where::Elsewhere, &[11], &[12, 13]);
    pairs(Where::Elsewhere, &[14], &[15]);
    pairs(Where::InDepot, &[1, 2, 3, 4, 5, 6, 7, 8, 9], &[10, 11, 13, 16]);
    pairs(Where::InDepot, &[10], &[11, 13, 16]);
    pairs(Where::InDepot, &[11], &[13, 16]);
    pairs(Where::InDepot, &[13], &[16]);
    pairs(Where::InRule, &[17], &[1, 9, 15]);
    pairs(Where::InRule, &[1], &[9, 15]);
    pairs(Where::InRule, &[9], &[15]);
    expected
}

fn describe(&(call, verdict, number): &Kind) -> String {
    match verdict {
        DONE => format!("{}: done", call.name()),
        FINISHED => format!("{}: finished", call.name()),
        OUT_OF_FUEL => format!("{}: out of fuel", call.name()),
        REFUSED => format!("{}: refused {number}", call.name()),
        _ => format!("{}: verdict {verdict}", call.name()),
    }
}

fn place_name(place: Where) -> &'static str {
    match place {
        Where::SameNode => "at one node",
        Where::LaterNode => "at a later node",
        Where::Elsewhere => "elsewhere",
        Where::InDepot => "in a depot",
        Where::InRule => "in a typed rule",
    }
}

impl Display for Tally {
    fn fmt(&self, f: &mut Formatter) -> fmt::Result {
        self.answer_table(f)?;
        writeln!(f, "\nRefusals that competed (told over rival: times)")?;
        for place in [Where::SameNode, Where::LaterNode, Where::Elsewhere, Where::InDepot, Where::InRule] {
            self.contest_lines(f, place)?;
        }
        writeln!(f, "\nDepots that were done, with {}", times(&DEPOTS, &self.depots))?;
        writeln!(f, "Typed rules with {}", times(&RULES, &self.rules))
    }
}

fn times(names: &[&str], counts: &[usize]) -> String {
    let each: Vec<String> = names.iter().zip(counts).map(|(name, count)| format!("{name}: {count}")).collect();
    each.join(", ")
}

impl Tally {
    fn answer_table(&self, f: &mut Formatter) -> fmt::Result {
        let columns: Vec<(u32, u32)> = [(DONE, 0), (FINISHED, 0), (OUT_OF_FUEL, 0)]
            .into_iter()
            .chain((1..=LAST_NUMBER).map(|number| (REFUSED, number)))
            .collect();
        write!(f, "{:<12}{:>7}{:>9}{:>7}", "", "done", "finished", "fuel")?;
        (1..=LAST_NUMBER).try_for_each(|number| write!(f, "{number:>6}"))?;
        writeln!(f)?;
        for call in Call::ALL {
            write!(f, "{:<12}", call.name())?;
            for (i, &(verdict, number)) in columns.iter().enumerate() {
                let width = [7, 9, 7].get(i).copied().unwrap_or(6);
                match self.answers.get(&(call, verdict, number)) {
                    Some(times) => write!(f, "{times:>width$}")?,
                    None => write!(f, "{:>width$}", "-")?,
                }
            }
            writeln!(f)?;
        }
        Ok(())
    }

    fn contest_lines(&self, f: &mut Formatter, wanted: Where) -> fmt::Result {
        let entries: Vec<String> = self
            .contests
            .iter()
            .filter(|((place, ..), _)| *place == wanted)
            .map(|((_, told, rival), times)| format!("{told}/{rival}: {times}"))
            .collect();
        for (i, line) in entries.chunks(9).enumerate() {
            let name = if i == 0 { place_name(wanted) } else { "" };
            writeln!(f, "{name:<16}{}", line.join(", "))?;
        }
        Ok(())
    }
}
