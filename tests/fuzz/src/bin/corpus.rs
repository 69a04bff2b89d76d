//! `corpus seeds TARGET DIRECTORY` writes the inputs to begin with;
//! `corpus tally TARGET DIRECTORY` tells how often each call of the inputs in
//! the directory is given each number by the library;
//! `corpus show TARGET FILE` prints the calls of an input.

use std::fmt::Debug;
use std::path::Path;
use std::{env, fs, io};
use zealfs_fuzz::{images, lists, seeds, v2};
use zealfs_tests::calls::{Answer, Call, CALL_NAMES, NUMBERS};
use zealfs_tests::harness::Scenario;
use zealfs_tests::{c, v2 as tests_v2};

/// One of the targets, with what is known of it.
struct Target<C> {
    decode: fn(&[u8]) -> Scenario<C>,
    seeds: fn() -> Vec<Vec<u8>>,
    /// Performs a call by the library.
    perform: fn(&mut C, &mut [u8]) -> Answer,
    index: fn(&C) -> usize,
    names: &'static [&'static str],
}

fn main() -> io::Result<()> {
    let arguments: Vec<String> = env::args().skip(1).collect();
    let [what, target, path] = arguments.as_slice() else {
        panic!("corpus seeds|tally|show images|calls|images2|calls2 PATH");
    };
    let path = Path::new(path);
    match target.as_str() {
        "images" => version_1(images::decode, seeds::of_images).run(what, path),
        "calls" => version_1(lists::decode, seeds::of_lists).run(what, path),
        "images2" => version_2(v2::images::decode, v2::seeds::of_images).run(what, path),
        "calls2" => version_2(v2::lists::decode, v2::seeds::of_lists).run(what, path),
        _ => panic!("a target is images, calls, images2 or calls2"),
    }
}

fn version_1(decode: fn(&[u8]) -> Scenario, seeds: fn() -> Vec<Vec<u8>>) -> Target<Call> {
    Target {
        decode,
        seeds,
        perform: |call, image| call.perform(&c::Library, image),
        index: Call::index,
        names: &CALL_NAMES,
    }
}

fn version_2(
    decode: fn(&[u8]) -> Scenario<tests_v2::calls::Call>,
    seeds: fn() -> Vec<Vec<u8>>,
) -> Target<tests_v2::calls::Call> {
    Target {
        decode,
        seeds,
        perform: |call, image| call.perform(&tests_v2::c::Library, image),
        index: tests_v2::calls::Call::index,
        names: &tests_v2::calls::CALL_NAMES,
    }
}

impl<C: Debug> Target<C> {
    fn run(&self, what: &str, path: &Path) -> io::Result<()> {
        match what {
            "seeds" => self.write_seeds(path),
            "tally" => self.tally(path),
            _ => self.show(path),
        }
    }

    fn write_seeds(&self, directory: &Path) -> io::Result<()> {
        fs::create_dir_all(directory)?;
        for (number, seed) in (self.seeds)().iter().enumerate() {
            fs::write(directory.join(format!("seed-{number:03}")), seed)?;
        }
        Ok(())
    }

    fn tally(&self, directory: &Path) -> io::Result<()> {
        let mut tally = vec![[0_u64; NUMBERS]; self.names.len()];
        for file in fs::read_dir(directory)? {
            let mut scenario = (self.decode)(&fs::read(file?.path())?);
            for call in &mut scenario.calls {
                let answer = (self.perform)(call, &mut scenario.image);
                tally[(self.index)(call)][usize::from(answer.number)] += 1;
            }
        }
        for (name, numbers) in self.names.iter().zip(tally) {
            let met = numbers.iter().enumerate().filter(|(_, &count)| count > 0);
            let met: Vec<String> = met
                .map(|(number, count)| format!("{number}: {count}"))
                .collect();
            println!("{name:>16}  {}", met.join(", "));
        }
        Ok(())
    }

    fn show(&self, file: &Path) -> io::Result<()> {
        let mut scenario = (self.decode)(&fs::read(file)?);
        println!("an image of {} bytes", scenario.image.len());
        for call in &mut scenario.calls {
            println!("{call:02X?}");
            println!("    {}", (self.perform)(call, &mut scenario.image));
        }
        Ok(())
    }
}
