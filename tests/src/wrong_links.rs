//! The link list with one thing broken, above the calls of the plain
//! implementation.

use crate::calls::{Answer, Base, Kind, Refusal, DATE_BYTES};
use crate::desk::DATE;
use crate::plain::links::{path_in, Row};
use crate::plain::{pages_of_file, Plain};
use crate::wrong::Fault;

/// The link list with the fault.
pub struct Links(pub Fault);

fn refused(number: u8, place: usize) -> Answer {
    Answer::refused(Refusal::at_row(number, place))
}

fn granted(answer: Answer) -> Result<Answer, Answer> {
    match answer.is_granted() {
        true => Ok(answer),
        false => Err(answer),
    }
}

impl Links {
    fn has(&self, fault: Fault) -> bool {
        self.0 == fault
    }

    /// How many bits a group has.
    fn bits(&self) -> u32 {
        match self.has(Fault::LinksGroupsOf64) {
            true => 6,
            false => 7,
        }
    }

    fn take_number(&self, bytes: &mut &[u8]) -> Option<u64> {
        let length = 1 + bytes.iter().position(|byte| byte & 0x80 == 0)?;
        let (groups, rest) = bytes.split_at(length);
        *bytes = rest;
        let is_shortest = length == 1 || groups[length - 1] != 0;
        if !is_shortest && !self.has(Fault::LinksNotShortest) {
            return None;
        }
        let mut number: u128 = 0;
        for &group in groups.iter().rev() {
            number = number.checked_mul(1 << self.bits())? + u128::from(group & 0x7F);
        }
        u64::try_from(number).ok()
    }

    fn is_in_range(&self, row: Row) -> bool {
        let mut seen = row;
        match self.0 {
            Fault::LinksSeventeenDigits if row.count == 17 => seen.count = 16,
            Fault::LinksNoDigits if row.count == 0 => seen.count = 1,
            Fault::LinksTenToTheCount => seen.value = row.value.saturating_sub(1),
            Fault::LinksLongFigure => seen.figure = row.figure / 2,
            Fault::LinksShortFigure => seen.figure = row.figure.saturating_mul(2),
            _ => {}
        }
        seen.is_in_range()
    }

    fn is_above(&self, row: Row, before: &[Row]) -> bool {
        let Some(last) = before.last() else {
            return true;
        };
        match self.0 {
            Fault::LinksEqualRows => (row.count, row.value) >= (last.count, last.value),
            Fault::LinksValueFirst => (row.value, row.count) > (last.value, last.count),
            _ => (row.count, row.value) > (last.count, last.value),
        }
    }

    /// Judges rows, each with the place that 21 tells; None is no row.
    fn judge(&self, rows: &[(Option<Row>, usize)]) -> Result<Vec<Row>, Answer> {
        let mut good: Vec<Row> = Vec::new();
        for &(row, place) in rows {
            match row.filter(|&row| self.is_in_range(row)) {
                Some(row) if self.is_above(row, &good) => good.push(row),
                Some(_) => return Err(refused(22, good.len())),
                None if self.has(Fault::LinksOrderFirst) => {
                    let read: Vec<Row> = rows.iter().filter_map(|row| row.0).collect();
                    let falls = |&at: &usize| !self.is_above(read[at], &read[..at]);
                    let number = (0..read.len()).find(falls);
                    return Err(number.map_or(refused(21, place), |row| refused(22, row)));
                }
                None if self.has(Fault::LinksRowForByte) => return Err(refused(21, good.len())),
                None => return Err(refused(21, place)),
            }
        }
        Ok(good)
    }

    fn rows_of(&self, file: &[u8]) -> Result<Vec<Row>, Answer> {
        let mut rest = file;
        let mut rows = Vec::new();
        while !rest.is_empty() {
            let begins = file.len() - rest.len();
            let row: Option<Vec<u64>> = (0..3).map(|_| self.take_number(&mut rest)).collect();
            rows.push((row.as_deref().map(Row::of), begins));
            if row.is_none() {
                break;
            }
        }
        self.judge(&rows)
    }

    fn rows_to_write(&self, numbers: &[u64]) -> Result<Vec<Row>, Answer> {
        let mut numbers = numbers.to_vec();
        if self.has(Fault::LinksRemainder) && numbers.len() % 3 == 2 {
            numbers.push(0);
        }
        let rows = numbers.chunks_exact(3).enumerate();
        let rows: Vec<_> = rows
            .map(|(number, row)| (Some(Row::of(row)), number))
            .collect();
        self.judge(&rows)
    }

    fn file_of(&self, rows: &[Row]) -> Vec<u8> {
        let mut file = Vec::new();
        for mut number in rows.iter().flat_map(|row| row.numbers()) {
            let groups = 1 << self.bits();
            while number >= groups {
                file.push((number % groups) as u8 | 0x80);
                number /= groups;
            }
            file.push(number as u8);
        }
        file
    }

    /// The content of the list's file.
    fn content(&self, image: &[u8], directory: &[u8]) -> Result<Vec<u8>, Answer> {
        let directory = match directory {
            b"" if self.has(Fault::LinksEmptyPath) => b"/",
            _ => directory,
        };
        granted(Plain.list(image, directory, 0))?;
        let mut file = vec![0; 65_025];
        let mut read = Plain.read(image, &path_in(directory), 0, &mut file);
        if read.number == 5 && self.has(Fault::LinksMissingIsEmpty) {
            return Ok(Vec::new());
        }
        if read.number == 5 && self.has(Fault::LinksPlaceOfDirectory) {
            read.place[0] = 1;
        }
        file.truncate(granted(read)?.values[0] as usize);
        Ok(file)
    }

    fn load(&self, image: &[u8], directory: &[u8]) -> Result<Vec<Row>, Answer> {
        self.rows_of(&self.content(image, directory)?)
    }

    fn try_read(
        &self,
        image: &[u8],
        directory: &[u8],
        numbers: &mut [u64],
    ) -> Result<Answer, Answer> {
        let room = numbers.len() / 3;
        if self.has(Fault::LinksRoomFirst) && room == 0 {
            let is_empty = self.content(image, directory)?.is_empty();
            if !is_empty {
                return Err(Answer::refused(Refusal::number(24)));
            }
        }
        let rows = self.load(image, directory)?;
        let is_short = match self.has(Fault::LinksRoomForOneMore) {
            true => room <= rows.len(),
            false => room < rows.len(),
        };
        if is_short {
            return Err(Answer::refused(Refusal::number(24)));
        }
        if self.has(Fault::LinksRestOverwritten) {
            numbers.fill(0);
        }
        for (triple, row) in numbers.chunks_exact_mut(3).zip(&rows) {
            triple.copy_from_slice(&row.numbers());
        }
        Ok(Answer::count(rows.len() as u64))
    }

    fn try_find(
        &self,
        image: &[u8],
        directory: &[u8],
        count: u64,
        value: u64,
    ) -> Result<Answer, Answer> {
        let file = self.content(image, directory)?;
        let is_asked = |row: &Row| {
            row.value == value && (row.count == count || self.has(Fault::LinksLeadingZeros))
        };
        if self.has(Fault::LinksFoundFirst) {
            let mut rest = file.as_slice();
            while let (Some(count), Some(value), Some(figure)) = (
                self.take_number(&mut rest),
                self.take_number(&mut rest),
                self.take_number(&mut rest),
            ) {
                if is_asked(&Row::of(&[count, value, figure])) {
                    return Ok(Answer::figure(Some(figure)));
                }
            }
        }
        let rows = self.rows_of(&file)?;
        let row = rows.into_iter().find(is_asked);
        Ok(Answer::figure(row.map(|row| row.figure)))
    }

    fn try_check(&self, image: &[u8], directory: &[u8]) -> Result<Answer, Answer> {
        let rows = self.load(image, directory)?;
        for (number, row) in rows.iter().enumerate() {
            let name = match self.has(Fault::LinksLeadingZeros) {
                true => row.value.to_string().into_bytes(),
                false => row.accession(),
            };
            let above = directory.strip_suffix(b"/").unwrap_or(directory);
            let found = Plain.find(image, &[above, b"/", name.as_slice()].concat());
            let is_file = found.values[0] == Kind::File.value();
            let is_good = is_file || self.has(Fault::LinksDirectoryNamed);
            if !found.is_granted() || !is_good {
                return Err(refused(23, number));
            }
        }
        Ok(Answer::granted())
    }

    fn try_write(
        &self,
        image: &mut [u8],
        directory: &[u8],
        date: &[u8],
        numbers: &[u64],
    ) -> Result<Answer, Answer> {
        let listed = Plain.list(image, directory, 0);
        let is_late = self.has(Fault::LinksDateAfterName);
        if listed.is_granted() || matches!(listed.number, 5 | 6) && !is_late {
            granted(Plain.make_file(image, b"/", date)).or_else(|made| match made.number {
                11 => Err(made),
                _ => Ok(made),
            })?;
        }
        granted(listed)?;
        let path = path_in(directory);
        let old = Plain.find(image, &path);
        let is_directory = old.is_granted() && old.values[0] == Kind::Directory.value();
        if is_directory && self.has(Fault::LinksDirectoryLast) {
            self.rows_to_write(numbers)?;
        }
        if is_directory {
            return Err(Answer::refused(Refusal::number(7)));
        }
        if self.has(Fault::LinksRoomBeforeRows) {
            let made = Plain.make_file(&mut image.to_vec(), &path, date);
            if matches!(made.number, 9 | 10) {
                return Err(made);
            }
        }
        if old.values[2] == 1 && old.is_granted() {
            if !self.has(Fault::LinksLockOverlooked) {
                return Err(Answer::refused(Refusal::number(25)));
            }
            Plain.unlock(image, &path);
        }
        let file = self.file_of(&self.rows_to_write(numbers)?);
        self.check_room(image, &old, &path, file.len())?;
        self.replace(image, &old, &path, date, &file)
    }

    /// 9 and 10 with the old file still there.
    fn check_room(
        &self,
        image: &[u8],
        old: &Answer,
        path: &[u8],
        length: usize,
    ) -> Result<(), Answer> {
        if !old.is_granted() {
            return Ok(());
        }
        let is_too_long = pages_of_file(length) > usize::from(image[3]);
        if self.has(Fault::LinksOldPagesCount) && is_too_long {
            return Err(Answer::refused(Refusal::number(10)));
        }
        // A name that is not there beside it.
        let other = [&path[..path.len() - 5], b"links?"].concat();
        let made = Plain.make_file(&mut image.to_vec(), &other, &DATE);
        if self.has(Fault::LinksOldEntryCounts) && made.number == 9 {
            return Err(made);
        }
        Ok(())
    }

    fn replace(
        &self,
        image: &mut [u8],
        old: &Answer,
        path: &[u8],
        date: &[u8],
        file: &[u8],
    ) -> Result<Answer, Answer> {
        let date: &[u8] = match old.is_granted() && self.has(Fault::LinksDateKept) {
            true if old.date != [0; DATE_BYTES] => &old.date,
            _ => date,
        };
        let before = image.to_vec();
        if old.is_granted() {
            granted(Plain.remove_file(image, path))?;
        }
        if self.has(Fault::LinksFirstPageOnly) && file.len() > 255 {
            granted(Plain.make_file(image, path, date))?;
            return granted(Plain.write(image, path, 0, &file[..255]));
        }
        let made = granted(Plain.make_file(image, path, date));
        let written = made.and_then(|_| granted(Plain.write(image, path, 0, file)));
        if written.is_err() && self.has(Fault::LinksRefusedRemoves) {
            return written;
        }
        if written.is_err() {
            image.copy_from_slice(&before);
        }
        written
    }
}

/// An answer, granted or not.
fn either(answer: Result<Answer, Answer>) -> Answer {
    answer.unwrap_or_else(|refused| refused)
}

impl Links {
    pub fn read(&self, image: &[u8], directory: &[u8], numbers: &mut [u64]) -> Answer {
        either(self.try_read(image, directory, numbers))
    }

    pub fn find(&self, image: &[u8], directory: &[u8], count: u64, value: u64) -> Answer {
        either(self.try_find(image, directory, count, value))
    }

    pub fn check(&self, image: &[u8], directory: &[u8]) -> Answer {
        either(self.try_check(image, directory))
    }

    pub fn write(
        &self,
        image: &mut [u8],
        directory: &[u8],
        date: &[u8],
        numbers: &[u64],
    ) -> Answer {
        either(self.try_write(image, directory, date, numbers))
    }
}
