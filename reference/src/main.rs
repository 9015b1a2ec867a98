//! The program: makes cases, answers them, compares answers, shows tables.

use std::fs;
use std::io::{self, BufWriter, Read, Write};
use std::process::ExitCode;

use reference::answer::word;
use reference::cases::{kinds, make_case, read_cases, write_case, Kind};
use reference::compare::compare;
use reference::line::answer_line;
use reference::read_table;
use reference::rows;
use reference::show::show;

const USAGE: &str = "usage:
  reference cases SEED COUNT [KINDS] > CASES   make cases (KINDS: a comma list, like 1,10)
  reference rows GROUP [KINDS] > CASES         document 01's rows and its limits at their edges
  reference answers < CASES > LINES            the answer line of each case
  reference compare CASES LINES                compare LINES with our own answers
  reference show < TABLE                       a table in readable columns
kinds:
  1 read table, 2 read request, 3 read derivation, 4 read key table, 5 read key request,
  6 name sheet, 10 decide, 11 check, 12 translate, 13 decide by keys
groups:
  reading, names, checking, deciding, deciding-small, translating
";

/// Wrong words on the command line.
const WRONG_USE: u8 = 64;
/// A case file that is none.
const WRONG_DATA: u8 = 65;
/// A file or stream that cannot be read or written.
const WRONG_FILE: u8 = 74;

/// Why the program ends early: its status and what it says.
struct Failure(u8, String);

impl From<io::Error> for Failure {
    fn from(error: io::Error) -> Failure {
        Failure(WRONG_FILE, format!("reference: {error}\n"))
    }
}

fn main() -> ExitCode {
    let words: Vec<String> = std::env::args().skip(1).collect();
    let words: Vec<&str> = words.iter().map(String::as_str).collect();
    match run(&words) {
        Ok(status) => status,
        Err(Failure(status, text)) => {
            eprint!("{text}");
            ExitCode::from(status)
        }
    }
}

fn run(words: &[&str]) -> Result<ExitCode, Failure> {
    match words {
        ["cases", seed, count] => make_cases(seed, count, None),
        ["cases", seed, count, kinds] => make_cases(seed, count, Some(kinds)),
        ["rows", group] => write_rows(group, None),
        ["rows", group, kinds] => write_rows(group, Some(kinds)),
        ["answers"] => answer_cases(),
        ["compare", cases, lines] => compare_files(cases, lines),
        ["show"] => show_table(),
        _ => Err(wrong_use("")),
    }
}

fn wrong_use(what: &str) -> Failure {
    Failure(WRONG_USE, format!("{what}{USAGE}"))
}

fn make_cases(seed: &str, count: &str, kinds: Option<&str>) -> Result<ExitCode, Failure> {
    let seed = whole_number(seed)?;
    let count = whole_number(count)?;
    let kinds = kinds_of(kinds)?;
    let mut out = BufWriter::new(io::stdout().lock());
    for index in 0..count {
        let mut bytes = Vec::new();
        write_case(&mut bytes, &make_case(seed, index, &kinds));
        out.write_all(&bytes)?;
    }
    out.flush()?;
    Ok(ExitCode::SUCCESS)
}

fn write_rows(group: &str, kinds: Option<&str>) -> Result<ExitCode, Failure> {
    let rows = rows::group(group)
        .ok_or_else(|| wrong_use(&format!("reference: `{group}` is no group of rows\n")))?;
    let rows = rows::of_kinds(rows, &kinds_of(kinds)?);
    let mut bytes = Vec::new();
    for case in &rows {
        write_case(&mut bytes, case);
    }
    io::stdout().lock().write_all(&bytes)?;
    Ok(ExitCode::SUCCESS)
}

fn whole_number(word: &str) -> Result<u64, Failure> {
    word.parse()
        .map_err(|_| wrong_use(&format!("reference: `{word}` is no number\n")))
}

/// The kinds of a list, or all where there is none.
fn kinds_of(list: Option<&str>) -> Result<Vec<Kind>, Failure> {
    let Some(list) = list else {
        return Ok(kinds::ALL.to_vec());
    };
    let kinds: Option<Vec<Kind>> = list
        .split(',')
        .map(|word| word.parse().ok().and_then(Kind::of_number))
        .collect();
    kinds.ok_or_else(|| wrong_use(&format!("reference: `{list}` is no list of kinds\n")))
}

fn answer_cases() -> Result<ExitCode, Failure> {
    let mut bytes = Vec::new();
    io::stdin().lock().read_to_end(&mut bytes)?;
    let cases = read_cases(&bytes).map_err(|wrong| wrong_data(&wrong.to_string()))?;
    let mut out = BufWriter::new(io::stdout().lock());
    for case in &cases {
        writeln!(out, "{}", answer_line(case))?;
    }
    out.flush()?;
    Ok(ExitCode::SUCCESS)
}

fn wrong_data(what: &str) -> Failure {
    Failure(WRONG_DATA, format!("reference: {what}\n"))
}

fn compare_files(cases: &str, lines: &str) -> Result<ExitCode, Failure> {
    let cases = read_cases(&read_file(cases)?).map_err(|wrong| wrong_data(&wrong.to_string()))?;
    let lines = read_file(lines)?;
    let comparison = compare(&cases, &String::from_utf8_lossy(&lines));
    write!(io::stdout().lock(), "{comparison}")?;
    match comparison.different {
        0 => Ok(ExitCode::SUCCESS),
        _ => Ok(ExitCode::FAILURE),
    }
}

fn read_file(name: &str) -> Result<Vec<u8>, Failure> {
    fs::read(name).map_err(|error| Failure(WRONG_FILE, format!("reference: {name}: {error}\n")))
}

fn show_table() -> Result<ExitCode, Failure> {
    let mut bytes = Vec::new();
    io::stdin().lock().read_to_end(&mut bytes)?;
    match read_table(&bytes) {
        Ok(table) => {
            write!(io::stdout().lock(), "{}", show(&table))?;
            Ok(ExitCode::SUCCESS)
        }
        Err(fault) => {
            let word = word(fault.number);
            let said = format!("answer {} {word} at {}", fault.number, fault.offset);
            Err(Failure(1, format!("{said}\n")))
        }
    }
}
