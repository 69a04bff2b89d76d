//! links: the list from accessions to published figures in the file LINKS of a directory (paper 02 §4), from and to a text table. A line of the
//! table has an accession, by its exact digits, and the number of its figure; what follows a `#` is for the reader.

use super::change::change;
use super::{Command, MANY};
use crate::args::{named, Given};
use crate::either::only_one;
use crate::image;
use crate::output::{Object, Output};
use crate::trouble::{asked, file, words, Outcome, DONE, REFUSED};
use std::ffi::OsString;
use zealfs::links::{self, Row};
use zealfs::Refusal;

pub const COMMANDS: &[Command] = &[Command {
    name: "links",
    usage: "show|check|find|write [--date DATE] IMAGE DIRECTORY [ACCESSION|TABLE|-]",
    help: "the link list of a directory: show it, check that every row has its file, find an accession's figure, write it from a table",
    options: &["--date"],
    count: (3, MANY),
    run,
}];

/// No file of an image has more rows than bytes.
const MOST_ROWS: usize = zealfs::LONGEST;

fn run(given: &Given, out: &mut Output) -> Outcome<u8> {
    let inner = Inner { name: named(&given.words[1]), image: given.words[1].clone(), directory: given.path(2) };
    match (given.words[0].to_str(), given.words.len()) {
        (Some("show"), 3) => inner.show(out),
        (Some("check"), 3) => inner.check(out),
        (Some("find"), 4) => inner.find(&named(&given.words[3]), out),
        (Some("write"), 4) => write(given),
        _ => words(format!(
            "links: show and check take an image and a directory, find an accession too, write a table\nusage: zealfs links {}",
            COMMANDS[0].usage
        )),
    }
}

struct Inner<'a> {
    name: String,
    image: OsString,
    directory: &'a [u8],
}

/// The path of a directory's list, which is what a refusal is about.
fn list_path(directory: &[u8]) -> Vec<u8> {
    match directory {
        b"" => Vec::new(),
        b"/" => b"/LINKS".to_vec(),
        _ => [directory, b"/LINKS"].concat(),
    }
}

/// The accession as it is written: with its leading zeros.
fn accession(row: Row) -> String {
    format!("{:0width$}", row.value, width = row.count as usize)
}

impl Inner<'_> {
    fn bytes(&self) -> Outcome<Vec<u8>> {
        let bytes = file(&self.name, image::read(&self.image))?;
        only_one(&self.name, &bytes, "links")?;
        Ok(bytes)
    }

    fn rows(&self) -> Outcome<Vec<Row>> {
        let mut numbers = vec![0; 3 * MOST_ROWS];
        let count = asked(&self.name, &list_path(self.directory), links::read(&self.bytes()?, self.directory, &mut numbers))?;
        Ok(numbers.chunks(3).take(count).map(|row| Row::of([row[0], row[1], row[2]])).collect())
    }

    fn show(&self, out: &mut Output) -> Outcome<u8> {
        for row in self.rows()? {
            let told = || Object::default().text("accession", &accession(row)).number("figure", row.figure);
            out.tell(told, || format!("{} {}", accession(row), row.figure))?;
        }
        Ok(DONE)
    }

    /// A row without a file is told by its accession.
    fn check(&self, out: &mut Output) -> Outcome<u8> {
        match links::check(&self.bytes()?, self.directory) {
            Err(refusal @ Refusal::RowWithoutFile { row }) => {
                let rows = self.rows()?;
                let missing = usize::try_from(row).ok().and_then(|row| rows.get(row)).map(|&row| accession(row)).unwrap_or_default();
                let told = || {
                    Object::default().number("number", refusal.number().into()).text("accession", &missing).text("error", refusal.text())
                };
                out.tell(told, || format!("{}: row {row}, accession {missing}: {refusal}", self.name))?;
                Ok(REFUSED)
            }
            answer => {
                asked(&self.name, &list_path(self.directory), answer)?;
                let told = || Object::default().text("image", &self.name).flag("in_order", true);
                out.tell(told, || format!("{}: every row of the link list has its file", self.name))?;
                Ok(DONE)
            }
        }
    }

    fn find(&self, digits: &str, out: &mut Output) -> Outcome<u8> {
        let Some((count, value)) = read_accession(digits) else {
            return words(format!("links: {digits} is no accession: 1 to 16 digits"));
        };
        let figure = asked(&self.name, &list_path(self.directory), links::find(&self.bytes()?, self.directory, count, value))?;
        // that there is none is an answer and no refusal
        let told = || {
            let told = Object::default().text("accession", digits).flag("found", figure.is_some());
            match figure {
                Some(figure) => told.number("figure", figure),
                None => told,
            }
        };
        out.tell(told, || figure.map_or_else(|| "none".to_owned(), |figure| figure.to_string()))?;
        Ok(DONE)
    }
}

/// How many digits, and their value.
fn read_accession(text: &str) -> Option<(u64, u64)> {
    let is_digits = !text.is_empty() && text.bytes().all(|byte| byte.is_ascii_digit());
    (is_digits && text.len() <= 16).then(|| Some((text.len() as u64, text.parse().ok()?))).flatten()
}

/// The rows of a table, sorted, each with its line.
fn read_table(name: &str, text: &str) -> Outcome<Vec<(Row, usize)>> {
    let mut rows = Vec::new();
    for (number, line) in text.lines().enumerate() {
        let line = line.split('#').next().unwrap_or_default();
        let parts: Vec<&str> = line.split_whitespace().collect();
        let row = match parts[..] {
            [] => continue,
            [accession, figure] => read_accession(accession).zip(figure.parse().ok()),
            _ => None,
        };
        let Some(((count, value), figure)) = row else {
            return words(format!("{name}: line {}: not an accession of 1 to 16 digits and a figure's number", number + 1));
        };
        rows.push((Row { count, value, figure }, number + 1));
    }
    rows.sort_by_key(|(row, _)| (row.count, row.value));
    Ok(rows)
}

fn write(given: &Given) -> Outcome<u8> {
    let (date, source) = (given.date()?, &given.words[3]);
    let table = file(&named(source), image::read_content(source))?;
    let rows = read_table(&named(source), &String::from_utf8_lossy(&table))?;
    let numbers: Vec<u64> = rows.iter().flat_map(|(row, _)| row.numbers()).collect();
    change(&given.words[1], |name, bytes| {
        only_one(name, bytes, "links")?;
        let answer = links::write(bytes, given.path(2), date, &numbers);
        let line = match answer {
            Err(Refusal::BrokenRow { at: row } | Refusal::RowNotAbove { row }) => usize::try_from(row).ok().and_then(|row| rows.get(row)),
            _ => None,
        };
        let place = line.map(|(_, line)| format!("{}, line {line}", named(source)).into_bytes());
        asked(name, &place.unwrap_or_else(|| list_path(given.path(2))), answer)
    })
}
