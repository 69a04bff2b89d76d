//! Shrinks a list of calls that shows a difference: drops calls, simplifies
//! the image, shortens the calls' bytes, and prints what is left.

use crate::calls::{Call, Calls};
use crate::harness::{compare, Difference, Scenario};
use crate::plain::{Plain, PAGE};
use std::fmt::{Debug, Write};

/// Comparisons that one shrinking may cost.
const TRIALS: usize = 30_000;

/// What a list is tried by: two implementations of one version's calls.
pub trait Trial {
    type Call: Clone + Debug + PartialEq;

    /// Where the two part.
    fn compare(&self, scenario: &Scenario<Self::Call>) -> Option<Difference>;
    /// Calls that are a little simpler than this one.
    fn simpler(&self, call: &Self::Call) -> Vec<Self::Call>;
    /// Images that hold nothing, to be tried in the place of one of that length.
    fn fresh(&self, length: usize) -> Vec<Vec<u8>>;
    fn call_text(&self, call: &Self::Call) -> String;
}

/// Two implementations of version 1.
struct Pair<'a> {
    expected: &'a dyn Calls,
    actual: &'a dyn Calls,
}

impl Trial for Pair<'_> {
    type Call = Call;

    fn compare(&self, scenario: &Scenario) -> Option<Difference> {
        compare(scenario, self.expected, self.actual, &mut |_, _| {})
    }

    fn simpler(&self, call: &Call) -> Vec<Call> {
        simpler(call)
    }

    fn fresh(&self, length: usize) -> Vec<Vec<u8>> {
        let formatted = |length| {
            let mut image = vec![0; length];
            Plain.format(&mut image).is_granted().then_some(image)
        };
        [2048, length].into_iter().filter_map(formatted).collect()
    }

    fn call_text(&self, call: &Call) -> String {
        call_text(call)
    }
}

struct Shrinker<'a, T: Trial> {
    trial: &'a T,
    best: Scenario<T::Call>,
    trials: usize,
}

/// A list, as short as is found, on which the two implementations differ.
pub fn shrink(scenario: &Scenario, expected: &dyn Calls, actual: &dyn Calls) -> Scenario {
    shrink_by(&Pair { expected, actual }, scenario)
}

/// The same, of either version.
pub fn shrink_by<T: Trial>(trial: &T, scenario: &Scenario<T::Call>) -> Scenario<T::Call> {
    let mut shrinker = Shrinker {
        trial,
        best: scenario.clone(),
        trials: 0,
    };
    loop {
        let before = shrinker.best.clone();
        shrinker.cut_tail();
        shrinker.drop_calls();
        shrinker.simplify_image();
        shrinker.simplify_calls();
        if shrinker.best == before || shrinker.trials >= TRIALS {
            return shrinker.best;
        }
    }
}

impl<T: Trial> Shrinker<'_, T> {
    /// Takes the scenario if it still shows a difference.
    fn accept(&mut self, scenario: Scenario<T::Call>) -> bool {
        if self.trials >= TRIALS || scenario == self.best {
            return false;
        }
        self.trials += 1;
        let difference = self.trial.compare(&scenario);
        if difference.is_some() {
            self.best = scenario;
        }
        difference.is_some()
    }

    /// Nothing after the call that shows the difference is needed.
    fn cut_tail(&mut self) {
        let difference = self.trial.compare(&self.best);
        if let Some(difference) = difference {
            let mut scenario = self.best.clone();
            scenario.calls.truncate(difference.step + 1);
            self.accept(scenario);
        }
    }

    /// Delta debugging: drops stretches of calls, halving their length.
    fn drop_calls(&mut self) {
        let mut length = self.best.calls.len().max(1);
        while length > 0 {
            let mut from = 0;
            while from < self.best.calls.len() {
                let to = (from + length).min(self.best.calls.len());
                let mut scenario = self.best.clone();
                scenario.calls.drain(from..to);
                if !self.accept(scenario) {
                    from += length;
                }
            }
            length /= 2;
        }
    }

    /// A fresh image, a smaller fresh one, or the same with stretches zeroed.
    fn simplify_image(&mut self) {
        for fresh in self.trial.fresh(self.best.image.len()) {
            if self.accept_image(fresh) {
                return;
            }
        }
        for length in [16 * PAGE, PAGE, 32, 1] {
            let mut from = 0;
            while from < self.best.image.len() {
                let to = (from + length).min(self.best.image.len());
                if self.best.image[from..to].iter().any(|&byte| byte != 0) {
                    let mut image = self.best.image.clone();
                    image[from..to].fill(0);
                    self.accept_image(image);
                }
                from = to;
            }
        }
    }

    fn accept_image(&mut self, image: Vec<u8>) -> bool {
        let calls = self.best.calls.clone();
        self.accept(Scenario { image, calls })
    }

    fn simplify_calls(&mut self) {
        for index in 0..self.best.calls.len() {
            while (self.trial.simpler(&self.best.calls[index]).into_iter())
                .any(|call| self.accept_call(index, call))
            {}
        }
    }

    fn accept_call(&mut self, index: usize, call: T::Call) -> bool {
        let mut scenario = self.best.clone();
        scenario.calls[index] = call;
        self.accept(scenario)
    }
}

/// Calls that are a little simpler than this one.
pub fn simpler(call: &Call) -> Vec<Call> {
    match call {
        Call::Format | Call::Verdict | Call::Repair => Vec::new(),
        Call::Find(path) => shorter(path).map(Call::Find).collect(),
        Call::RemoveFile(path) => shorter(path).map(Call::RemoveFile).collect(),
        Call::RemoveDirectory(path) => shorter(path).map(Call::RemoveDirectory).collect(),
        Call::Lock(path) => shorter(path).map(Call::Lock).collect(),
        Call::Unlock(path) => shorter(path).map(Call::Unlock).collect(),
        Call::List(path, entry) => {
            let paths = shorter(path).map(|path| Call::List(path, *entry));
            let numbers = smaller(*entry).map(|entry| Call::List(path.clone(), entry));
            paths.chain(numbers).collect()
        }
        Call::MakeFile(path, date) => shorter(path)
            .map(|path| Call::MakeFile(path, date.clone()))
            .collect(),
        Call::MakeDirectory(path, date) => shorter(path)
            .map(|path| Call::MakeDirectory(path, date.clone()))
            .collect(),
        Call::Read(path, position, buffer) => {
            let with = |(path, position, bytes)| Call::Read(path, position, bytes);
            simpler_transfer(path, *position, buffer)
                .map(with)
                .collect()
        }
        Call::Write(path, position, bytes) => {
            let with = |(path, position, bytes)| Call::Write(path, position, bytes);
            simpler_transfer(path, *position, bytes).map(with).collect()
        }
        Call::Store(path, date, content, number, page) => {
            let with = |(path, number, content)| {
                Call::Store(path, date.clone(), content, number, page.clone())
            };
            let simpler_lent = shorter(page).chain(plainer(page));
            let lent = simpler_lent.map(|page| {
                Call::Store(path.clone(), date.clone(), content.clone(), *number, page)
            });
            let others = simpler_transfer(path, *number, content).map(with);
            others.chain(lent).collect()
        }
        Call::LinksRead(path, numbers) => {
            let paths = shorter(path).map(|path| Call::LinksRead(path, numbers.clone()));
            let lists = simpler_list(numbers).map(|list| Call::LinksRead(path.clone(), list));
            lists.chain(paths).collect()
        }
        Call::LinksWrite(path, date, numbers) => {
            let with = |path: &[u8], list| Call::LinksWrite(path.to_vec(), date.clone(), list);
            let paths = shorter(path).map(|path| with(&path, numbers.clone()));
            let lists = simpler_list(numbers).map(|list| with(path, list));
            lists.chain(paths).collect()
        }
        Call::LinksFind(path, count, value) => {
            let paths = shorter(path).map(|path| Call::LinksFind(path, *count, *value));
            let counts = smaller(*count).map(|count| Call::LinksFind(path.clone(), count, *value));
            let values = smaller(*value).map(|value| Call::LinksFind(path.clone(), *count, value));
            counts.chain(values).chain(paths).collect()
        }
        Call::LinksCheck(path) => shorter(path).map(Call::LinksCheck).collect(),
    }
}

/// Lists without some of their rows, and lists of which a number is smaller.
fn simpler_list(numbers: &[u64]) -> impl Iterator<Item = Vec<u64>> + '_ {
    let rows: Vec<&[u64]> = numbers.chunks(3).collect();
    let fewer: Vec<Vec<u64>> = shorter(&rows).map(|rows| rows.concat()).collect();
    // In a long list rows go first.
    let few = numbers.len().min(12);
    let plainer = (0..few).flat_map(move |at| {
        smaller(numbers[at]).map(move |number| {
            let mut list = numbers.to_vec();
            list[at] = number;
            list
        })
    });
    fewer.into_iter().chain(plainer)
}

pub(crate) type Transfer = (Vec<u8>, u64, Vec<u8>);

pub(crate) fn simpler_transfer<'a>(
    path: &'a [u8],
    position: u64,
    bytes: &'a [u8],
) -> impl Iterator<Item = Transfer> + 'a {
    let paths = shorter(path).map(move |path| (path, position, bytes.to_vec()));
    let positions =
        smaller(position).map(move |position| (path.to_vec(), position, bytes.to_vec()));
    let contents = shorter(bytes)
        .chain(plainer(bytes))
        .map(move |bytes| (path.to_vec(), position, bytes));
    contents.chain(positions).chain(paths)
}

/// The bytes or rows without a stretch at their beginning, middle or end.
fn shorter<T: Clone>(items: &[T]) -> impl Iterator<Item = Vec<T>> + '_ {
    let halvings = std::iter::successors(Some(items.len().div_ceil(2)), |cut| {
        (*cut > 1).then_some(cut / 2)
    });
    let cuts = halvings.filter(|&cut| cut > 0);
    cuts.flat_map(move |cut| {
        let kept = items.len() - cut;
        let middle = [&items[..kept / 2], &items[kept / 2 + cut..]].concat();
        [items[..kept].to_vec(), middle, items[cut..].to_vec()]
    })
}

/// The same number of bytes, all `x`, unless they are already.
fn plainer(bytes: &[u8]) -> Option<Vec<u8>> {
    let plain = vec![b'x'; bytes.len()];
    (plain != bytes).then_some(plain)
}

/// Some smaller numbers, the smallest first.
pub fn smaller(number: u64) -> impl Iterator<Item = u64> {
    let candidates = [0, 1, 255, 256, number / 2, number.saturating_sub(1)];
    candidates.into_iter().filter(move |&other| other < number)
}

/// The whole report of a difference: where the list comes from, the shortest
/// one found, and where the implementations part.
pub fn report(
    origin: &str,
    scenario: &Scenario,
    expected: &dyn Calls,
    actual: &dyn Calls,
) -> String {
    report_by(&Pair { expected, actual }, origin, scenario)
}

/// The same, of either version.
pub fn report_by<T: Trial>(trial: &T, origin: &str, scenario: &Scenario<T::Call>) -> String {
    let shortest = shrink_by(trial, scenario);
    let difference = trial.compare(&shortest);
    let Difference { step, what } = difference.expect("shrinking keeps a difference");
    let mut text = format!("{origin}\n");
    let _ = writeln!(
        text,
        "{} calls, shortest list found has {}:",
        scenario.calls.len(),
        shortest.calls.len()
    );
    text += &image_text(trial, &shortest.image);
    for (index, call) in shortest.calls.iter().enumerate() {
        let mark = if index == step { ">" } else { " " };
        let _ = writeln!(text, "{mark} {}", trial.call_text(call));
    }
    text + &what
}

/// An image as its length and the lines of 16 bytes that aren't all zero.
fn image_text<T: Trial>(trial: &T, image: &[u8]) -> String {
    if trial.fresh(image.len()).iter().any(|fresh| fresh == image) {
        return format!("  a fresh image of {} bytes\n", image.len());
    }
    let mut text = format!("  an image of {} bytes, zero but for:\n", image.len());
    for (line, bytes) in image.chunks(16).enumerate() {
        if bytes.iter().any(|&byte| byte != 0) {
            let _ = writeln!(text, "    {:5}: {}", line * 16, hex(bytes));
        }
    }
    text
}

pub fn call_text(call: &Call) -> String {
    let name = call.name();
    match call {
        Call::Format | Call::Verdict | Call::Repair => name.to_string(),
        Call::Find(path)
        | Call::RemoveFile(path)
        | Call::RemoveDirectory(path)
        | Call::Lock(path)
        | Call::Unlock(path)
        | Call::LinksCheck(path) => {
            format!("{name} {}", text(path))
        }
        Call::LinksRead(path, numbers) => format!("{name} {} into {numbers:?}", text(path)),
        Call::LinksWrite(path, date, numbers) => {
            format!("{name} {} date {} {numbers:?}", text(path), hex(date))
        }
        Call::LinksFind(path, count, value) => format!("{name} {} {count} {value}", text(path)),
        Call::List(path, entry) => format!("{name} {} entry {entry}", text(path)),
        Call::MakeFile(path, date) | Call::MakeDirectory(path, date) => {
            format!("{name} {} date {}", text(path), hex(date))
        }
        Call::Read(path, position, bytes) | Call::Write(path, position, bytes) => {
            let length = bytes.len();
            format!(
                "{name} {} at {position} {length} bytes: {}",
                text(path),
                hex(bytes)
            )
        }
        Call::Store(path, date, content, number, page) => {
            let (length, room) = (content.len(), page.len());
            format!(
                "{name} {} date {} number {number} {length} bytes: {} into {room}: {}",
                text(path),
                hex(date),
                hex(content),
                hex(page)
            )
        }
    }
}

pub(crate) fn text(path: &[u8]) -> String {
    format!("\"{}\"", path.escape_ascii())
}

/// Bytes in hexadecimal; a run of one byte is told by its length.
pub(crate) fn hex(bytes: &[u8]) -> String {
    let mut text = String::new();
    for run in bytes.chunk_by(|left, right| left == right) {
        let _ = match run.len() {
            1..=3 => write!(text, "{}", format!("{:02X} ", run[0]).repeat(run.len())),
            count => write!(text, "{:02X}*{count} ", run[0]),
        };
    }
    text.trim_end().to_string()
}
