//! Every list of up to five calls from a small choice of them, on a small
//! image: what random lists might leave out.

use zealfs_tests::calls::{Call, Calls};
use zealfs_tests::desk::{pattern, DATE};
use zealfs_tests::harness::{compare, Scenario};
use zealfs_tests::plain::Plain;
use zealfs_tests::shrink::report;
use zealfs_tests::subjects::compared;

const LONGEST: u32 = 5;

/// Calls that get in each other's way: names made, filled, locked and removed
/// again in two directories of an image of 7 free pages.
fn choice() -> Vec<Call> {
    let make_file = |path: &[u8]| Call::MakeFile(path.to_vec(), DATE.to_vec());
    let make_directory = |path: &[u8]| Call::MakeDirectory(path.to_vec(), DATE.to_vec());
    let write =
        |path: &[u8], position, length| Call::Write(path.to_vec(), position, pattern(length));
    let remove_file = |path: &[u8]| Call::RemoveFile(path.to_vec());
    let remove_directory = |path: &[u8]| Call::RemoveDirectory(path.to_vec());
    vec![
        make_file(b"/A"),
        make_directory(b"/D"),
        make_file(b"/D/A"),
        make_directory(b"/D/D"),
        write(b"/A", 0, 255),
        write(b"/A", 255, 1),
        write(b"/A", 1, 1000),
        write(b"/D/A", 0, 1275),
        remove_file(b"/A"),
        remove_file(b"/D"),
        remove_file(b"/D/A"),
        remove_directory(b"/A"),
        remove_directory(b"/D"),
        remove_directory(b"/D/D"),
        Call::Lock(b"/A".to_vec()),
        Call::Unlock(b"/A".to_vec()),
        Call::Lock(b"/D/A".to_vec()),
    ]
}

/// The list that a number stands for, its digits being the calls.
fn list(choice: &[Call], mut number: usize, length: u32) -> Vec<Call> {
    let next = |_| {
        let call = choice[number % choice.len()].clone();
        number /= choice.len();
        call
    };
    (0..length).map(next).collect()
}

#[test]
fn every_short_list() {
    let choice = choice();
    let mut image = vec![0xE5; 2048];
    Plain.format(&mut image);
    let lists = choice.len().pow(LONGEST);
    for subject in compared() {
        let calls = subject.calls.as_ref();
        // The shorter lists are the beginnings of these.
        for number in 0..lists {
            let scenario = Scenario {
                image: image.clone(),
                calls: list(&choice, number, LONGEST),
            };
            if compare(&scenario, &Plain, calls, &mut |_, _| {}).is_some() {
                let origin = format!("list {number} of the choice");
                let text = report(&origin, &scenario, &Plain, calls);
                panic!("{} differs from plain:\n{text}", subject.name);
            }
        }
    }
    println!("{lists} lists of {LONGEST} calls");
}
