//! The comparison of the kernel's answer lines with our own.

use std::collections::{BTreeMap, HashSet};
use std::fmt;

use crate::answer::{word, Answer};
use crate::cases::{Case, Kind};
use crate::check::check;
use crate::derivation::{read_derivation, used_bindings};
use crate::line::{answer_line, bytes_of_hex, hash_of, hex_of};
use crate::names::Names;
use crate::request::read_request;
use crate::table::read_table;

/// So many differences are shown in full.
const SHOWN: usize = 5;
/// So many bytes of a part are shown.
const SHOWN_BYTES: usize = 200;

/// One case whose lines differ.
pub struct Difference {
    pub index: usize,
    pub case: Option<Case>,
    pub ours: String,
    pub theirs: String,
    pub reason: String,
}

/// What came out of a comparison.
#[derive(Default)]
pub struct Comparison {
    /// How often each answer number is ours, for each kind.
    pub counts: BTreeMap<Kind, BTreeMap<u32, u64>>,
    /// How many cases differ.
    pub different: u64,
    /// The first few of them.
    pub shown: Vec<Difference>,
}

impl Comparison {
    fn count(&mut self, kind: Kind, ours: &str) {
        let number = ours.split(' ').next().and_then(|word| word.parse().ok());
        let kinds = self.counts.entry(kind).or_default();
        *kinds.entry(number.unwrap_or(u32::MAX)).or_default() += 1;
    }

    fn add(&mut self, difference: Difference) {
        self.different += 1;
        if self.shown.len() < SHOWN {
            self.shown.push(difference);
        }
    }
}

/// Compares each line with our own answer to its case.
pub fn compare(cases: &[Case], lines: &str) -> Comparison {
    let mut comparison = Comparison::default();
    let lines: Vec<&str> = lines.split_terminator('\n').collect();
    for (index, case) in cases.iter().enumerate() {
        let ours = answer_line(case);
        comparison.count(case.kind, &ours);
        let theirs = lines.get(index).copied();
        let outcome = match theirs {
            None => Err("there is no line".to_string()),
            Some(theirs) => compare_lines(case, &ours, theirs),
        };
        if let Err(reason) = outcome {
            comparison.add(Difference {
                index,
                case: Some(case.clone()),
                ours,
                theirs: theirs.unwrap_or_default().to_string(),
                reason,
            });
        }
    }
    for (index, line) in lines.iter().enumerate().skip(cases.len()) {
        comparison.add(Difference {
            index,
            case: None,
            ours: String::new(),
            theirs: line.to_string(),
            reason: "there is no such case".to_string(),
        });
    }
    comparison
}

/// Whether a line is right: our own, or a grant with another good derivation.
fn compare_lines(case: &Case, ours: &str, theirs: &str) -> Result<(), String> {
    if case.kind == Kind::Decide && ours.starts_with("0 ") {
        return compare_grants(case, ours, theirs);
    }
    if ours == theirs {
        Ok(())
    } else {
        Err("the lines differ".to_string())
    }
}

/// A grant may come with any derivation of that depth that lists no binding
/// twice and none that nothing in it uses.
fn compare_grants(case: &Case, ours: &str, theirs: &str) -> Result<(), String> {
    let [table, request, _, before] = &case.parts[..] else {
        return Err("the case lacks parts".to_string());
    };
    let (number, rest) = theirs.split_once(' ').ok_or("the line is too short")?;
    if number != "0" {
        return Err("one grants, the other refuses".to_string());
    }
    let hex = rest.rsplit(' ').next().unwrap_or_default();
    let derivation = bytes_of_hex(hex).ok_or("the derivation is not lowercase hex")?;
    let untouched = before
        .get(derivation.len()..)
        .ok_or("the derivation is longer than its buffer")?;
    let ours: Vec<&str> = ours.split(' ').collect();
    let &[_, offset, depth, _, sheet, _, _] = &ours[..] else {
        return Err("our line is broken".to_string());
    };
    let length = derivation.len();
    let right = format!(
        "0 {offset} {depth} {length} {sheet} {} {hex}",
        hash_of(untouched)
    );
    if theirs != right {
        return Err(format!(
            "with its derivation the line has to be: {}",
            cut_line(&right)
        ));
    }
    let depth = depth.parse().map_err(|_| "our depth is broken")?;
    let checked = check(table, request, &derivation);
    if checked != Answer::accepted(depth) {
        return Err(format!("the checker answers {checked:?}"));
    }
    lists_what_it_uses(table, request, &derivation)
}

/// Whether a derivation that holds lists no binding twice and none that
/// nothing in it uses.
fn lists_what_it_uses(table: &[u8], request: &[u8], derivation: &[u8]) -> Result<(), String> {
    let table = read_table(table).map_err(|_| "the table is faulty")?;
    let request = read_request(&table, request).ok_or("the request is faulty")?;
    let derivation = read_derivation(derivation).ok_or("the derivation is malformed")?;
    let names = Names::of(&table);
    let used: HashSet<usize> = used_bindings(
        &table,
        &names,
        &request,
        derivation.access_record,
        &derivation.delegations,
    )
    .into_iter()
    .collect();
    let unused = derivation.bindings.iter().find(|b| !used.contains(b));
    if let Some(binding) = unused {
        return Err(format!("nothing uses the listed binding {binding}"));
    }
    Ok(())
}

fn cut_line(line: &str) -> String {
    line.chars().take(2 * SHOWN_BYTES + 80).collect()
}

impl fmt::Display for Comparison {
    fn fmt(&self, f: &mut fmt::Formatter) -> fmt::Result {
        let mut total = 0;
        let mut answers: BTreeMap<u32, u64> = BTreeMap::new();
        for (kind, numbers) in &self.counts {
            let (number, words) = (kind.number(), kind.words());
            let cases: u64 = numbers.values().sum();
            total += cases;
            writeln!(f, "kind {number:>2} {words:<22}{cases:>9}")?;
            for (&number, count) in numbers {
                *answers.entry(number).or_default() += count;
            }
        }
        for (&number, count) in &answers {
            writeln!(f, "answer {number:>2} {:<20}{count:>9}", word(number))?;
        }
        for difference in &self.shown {
            write!(f, "{difference}")?;
        }
        writeln!(f, "{total} cases, {} differences", self.different)
    }
}

impl fmt::Display for Difference {
    fn fmt(&self, f: &mut fmt::Formatter) -> fmt::Result {
        writeln!(f, "difference at case {}: {}", self.index, self.reason)?;
        if let Some(case) = &self.case {
            writeln!(f, "  kind {} {}", case.kind.number(), case.kind.words())?;
            for (nth, part) in case.parts.iter().enumerate() {
                let shown = &part[..part.len().min(SHOWN_BYTES)];
                let more = if shown.len() < part.len() { "..." } else { "" };
                let hex = hex_of(shown);
                writeln!(f, "  part {nth}, {} bytes: {hex}{more}", part.len())?;
            }
        }
        writeln!(f, "  ours:   {}", self.ours)?;
        writeln!(f, "  theirs: {}", self.theirs)
    }
}
