//! Several writers at once, and a program that holds an image.

mod common;

use common::{Folder, DATE};
use std::fs::{self, File};
use std::thread;
use std::time::{Duration, Instant};

/// Eight writers, six files each, every one by a run of its own: all 48 are there, and the image is in order.
#[test]
fn eight_writers_lose_nothing() {
    let folder = Folder::new();
    folder.done(&["format", "loan.img", "64k"]);
    folder.done(&["mkdir", "loan.img", "/0", "/1", "/2", "/3", "/4", "/5"]);
    thread::scope(|scope| {
        for writer in 0..8 {
            let folder = &folder;
            scope.spawn(move || {
                for directory in 0..6 {
                    let (source, path) = (format!("{writer}-{directory}"), format!("/{directory}/{writer}"));
                    folder.write(&source, source.as_bytes());
                    // who finds it held too long is told so, with status 8, and tries again
                    while folder.run(&["put", "--date", DATE, "loan.img", &source, &path]).status != Some(0) {}
                }
            });
        }
    });
    folder.status(&["check", "loan.img"], 0);
    for writer in 0..8 {
        for directory in 0..6 {
            folder.expect(&["cat", "loan.img", &format!("/{directory}/{writer}")], 0, &format!("{writer}-{directory}"), "");
        }
    }
    assert!(folder.names().iter().all(|name| !name.ends_with(".tmp")));
}

#[test]
fn an_image_that_another_holds() {
    let folder = Folder::with_example();
    let before = folder.read("loan.img");
    let held = File::open(folder.path("loan.img")).unwrap();
    held.lock().unwrap();
    let started = Instant::now();
    folder.expect(&["mkdir", "loan.img", "/B"], 8, "", "zealfs: loan.img: held by another program; try again when it has ended\n");
    assert!(started.elapsed() >= Duration::from_secs(2), "it waits a little");
    folder.status(&["tree", "loan.img"], 0);
    assert_eq!(folder.read("loan.img"), before);
    // and goes on when the other ends in time
    thread::scope(|scope| {
        scope.spawn(|| {
            thread::sleep(Duration::from_millis(300));
            drop(held);
        });
        folder.done(&["mkdir", "loan.img", "/B"]);
    });
}

/// The file beside an image has a name too, also where the image's is as long as a name may be.
#[test]
fn the_longest_name() {
    let folder = Folder::with_example();
    let long = format!("{}.img", "n".repeat(251));
    fs::rename(folder.path("loan.img"), folder.path(&long)).unwrap();
    folder.done(&["mkdir", &long, "/B"]);
    folder.status(&["check", &long], 0);
    // but none for what is to be kept: then nothing is done
    let mut lost = folder.read(&long);
    lost[4] |= 0x80;
    folder.write(&long, &lost);
    folder.status(&["repair", &long], 8);
    assert_eq!(folder.read(&long), lost);
    assert_eq!(folder.names(), [long]);
}
