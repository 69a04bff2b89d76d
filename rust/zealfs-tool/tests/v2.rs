//! Version 2 images: every command that has a call for them does with them what it does with those of version 1, and every other refuses them.

mod common;

use common::{example, example_two, Folder, DAMAGES_TWO, DATE};
use std::io::Write;
use std::process::Stdio;

const LISTING: &str = "pages 8 free 2\nF 300 /0042\nD 256 /A\nF 0 /A/7\n";

#[test]
fn looking_at_the_sample() {
    let folder = Folder::with_example_two();
    folder.expect(&["check", "loan.img"], 0, "loan.img: in order, 8 pages, 2 free\n", "");
    folder.expect(&["tree", "loan.img"], 0, LISTING, "");
    folder.expect(&["tree", "loan.img", "/A"], 0, "F 0 /A/7\n", "");
    folder.expect(&["ls", "loan.img"], 0, "0042\nA/\n", "");
    folder.expect(&["ls", "loan.img", "/0042"], 0, "0042\n", "");
    let long = "F -        300 2026-11-07 12:00:00 0042\nD -        256 2026-11-07 12:00:00 A/\n";
    folder.expect(&["ls", "-l", "loan.img"], 0, long, "");
    let info = "loan.img\nversion      2, pages of 256 bytes\nlength       2048 bytes\npages        8, of which 2 free\n\
                files        2 with 300 bytes, of which 0 locked\ndirectories  1\nroot         2 entries taken\n\
                room         512 bytes for a new file, a page less where its directory is full\n";
    folder.expect(&["info", "loan.img"], 0, info, "");
    let info = "{\"image\":\"loan.img\",\"version\":2,\"page_size\":256,\"bytes\":2048,\"pages\":8,\"free\":2,\"files\":2,\"content\":300,\
                \"locked\":0,\"directories\":1,\"root\":2,\"room\":512}\n";
    folder.expect(&["--json", "info", "loan.img"], 0, info, "");
    let told = folder.status(&["--json", "tree", "loan.img"], 0).out;
    assert_eq!(told.lines().count(), 3);
    let directory = "{\"path\":\"/A\",\"kind\":\"directory\",\"size\":256,\"locked\":false,\"date\":\"2026-11-07 12:00:00\"}";
    assert_eq!(told.lines().nth(1), Some(directory));
    assert_eq!(folder.read("loan.img"), example_two(), "looking changes nothing");
    // from standard input too
    let mut child = folder.command(&["tree", "-"]).stdin(Stdio::piped()).stdout(Stdio::piped()).spawn().unwrap();
    child.stdin.take().unwrap().write_all(&example_two()).unwrap();
    assert_eq!(child.wait_with_output().unwrap().stdout, LISTING.as_bytes());
}

#[test]
fn in_out_and_away() {
    let folder = Folder::new();
    folder.done(&["format", "--v2", "loan.img", "256k"]);
    folder.write("a.txt", b"ammonite");
    let big: Vec<u8> = (0..150_000u64).map(|number| (number * number / 8) as u8).collect();
    folder.write("big", &big);
    folder.done(&["mkdir", "loan.img", "/A", "/A/B"]);
    folder.done(&["put", "--date", DATE, "loan.img", "big", "/A/B/0043"]);
    folder.done(&["put", "--date", DATE, "loan.img", "a.txt", "/A/42"]);
    folder.expect(&["cat", "loan.img", "/A/42", "/A/42"], 0, "ammoniteammonite", "");
    folder.done(&["get", "loan.img", "/A/B/0043"]);
    assert!(folder.read("0043") == big);
    let there = "zealfs: loan.img: /A/42: refused 8: the name is there already\n  what to do: choose another, or remove the old one\n";
    folder.expect(&["put", "loan.img", "a.txt", "/A/42"], 2, "", there);
    folder.done(&["put", "-o", "--date", DATE, "loan.img", "a.txt", "/A/B/0043"]);
    folder.expect(&["cat", "loan.img", "/A/B/0043"], 0, "ammonite", "");
    folder.done(&["lock", "loan.img", "/A/B/0043"]);
    folder.expect(&["ls", "-l", "loan.img", "/A/B"], 0, "F locked     8 2026-11-15 12:00:00 0043\n", "");
    assert!(folder.status(&["rm", "loan.img", "/A/B/0043"], 2).err.contains("refused 25"));
    assert!(folder.status(&["put", "-o", "loan.img", "big", "/A/B/0043"], 2).err.contains("refused 25"));
    folder.done(&["unlock", "loan.img", "/A/B/0043"]);
    folder.done(&["rm", "loan.img", "/A/B/0043", "/A/42"]);
    assert!(folder.status(&["rmdir", "loan.img", "/A"], 2).err.contains("refused 13"));
    folder.done(&["rmdir", "loan.img", "/A/B", "/A"]);
    folder.expect(&["tree", "loan.img"], 0, "pages 512 free 509\n", "");
    // all or nothing
    let before = folder.read("loan.img");
    folder.status(&["mkdir", "loan.img", "/D", "/E", "/D"], 2);
    assert!(folder.read("loan.img") == before);
    assert_eq!(folder.names(), ["0043", "a.txt", "big", "loan.img"], "nothing is left over");
}

/// A directory has as many entries as there are pages for, and what was made by hand from the layout reads as it was laid out.
#[test]
fn directories_that_grow() {
    let folder = Folder::new();
    folder.done(&["format", "--v2", "loan.img", "64k"]);
    let names: Vec<String> = (0..150).map(|number| format!("/{number:03}")).collect();
    let words: Vec<&str> = ["mkdir", "loan.img"].into_iter().chain(names.iter().map(String::as_str)).collect();
    folder.done(&words);
    let listed = folder.status(&["ls", "loan.img"], 0).out;
    assert_eq!(listed.lines().count(), 150);
    assert_eq!(listed.lines().last(), Some("149/"));
    assert!(folder.status(&["info", "loan.img"], 0).out.contains("root         150 entries taken\n"));
    let more: Vec<String> = (0..110).map(|number| format!("/more{number:03}")).collect();
    let words: Vec<&str> = ["mkdir", "loan.img"].into_iter().chain(more.iter().map(String::as_str)).collect();
    assert!(folder.status(&words, 2).err.contains("refused 10"), "there is no 9 in version 2");
}

#[test]
fn the_deepest_image() {
    let folder = Folder::new();
    folder.done(&["format", "--v2", "--page", "256", "nest.img", "64k"]);
    let mut path = String::new();
    let mut words = vec!["mkdir".to_owned(), "nest.img".to_owned()];
    for _ in 0..254 {
        path += "/abcdefghijklmnop";
        words.push(path.clone());
    }
    folder.done(&words.iter().map(String::as_str).collect::<Vec<_>>());
    let listed = folder.status(&["tree", "nest.img"], 0).out;
    assert_eq!(listed.lines().count(), 255);
    assert_eq!(listed.lines().last(), Some(format!("D 256 {path}").as_str()));
}

#[test]
fn what_is_version_ones_alone() {
    let folder = Folder::with_example_two();
    folder.write("table", b"0042 12\n");
    folder.write("a.txt", b"a");
    let alone = [
        ("map", &["map", "loan.img"][..]),
        ("repair", &["repair", "loan.img"]),
        ("repair", &["repair", "-n", "loan.img"]),
        ("tidy", &["tidy", "loan.img"]),
        ("tidy", &["tidy", "-n", "loan.img"]),
        ("store", &["store", "loan.img", "a.txt", "/8", "stores"]),
        ("links", &["links", "show", "loan.img", "/"]),
        ("links", &["links", "check", "loan.img", "/"]),
        ("links", &["links", "find", "loan.img", "/", "42"]),
        ("links", &["links", "write", "loan.img", "/", "table"]),
    ];
    for (what, words) in alone {
        let told = format!("zealfs: loan.img: a version 2 image; {what} is for version 1 alone, and nothing was done\n");
        folder.expect(words, 2, "", &told);
    }
    let told = "{\"status\":2,\"image\":\"loan.img\",\"error\":\"a version 2 image; map is for version 1 alone, and nothing was done\"}\n";
    folder.expect(&["--json", "map", "loan.img"], 2, "", told);
    assert_eq!(folder.read("loan.img"), example_two());
    assert_eq!(folder.names(), ["a.txt", "loan.img", "table"]);
    // of several images each gets its own
    folder.write("one.img", &example());
    folder.status(&["repair", "one.img", "loan.img"], 2);
    folder.status(&["check", "one.img", "loan.img"], 0);
}

#[test]
fn damaged_images() {
    let places = [
        (16, "number 16, entry 0 of the root:"),
        (17, "number 17, entry 0 of the root, after 0 good pages:"),
        (17, "number 17, the root, after 0 good pages:"),
        (18, "number 18, page 2:"),
        (19, "number 19, page 6:"),
        (20, "number 20, page 5:"),
    ];
    for (nth, (number, at, byte)) in DAMAGES_TWO.into_iter().enumerate() {
        let folder = Folder::new();
        let mut image = example_two();
        image[at] = byte;
        folder.write("x.img", &image);
        folder.write("a.txt", b"a");
        let told = folder.status(&["check", "x.img"], 4).out;
        assert!(told.starts_with(&format!("x.img: not in order, number {number}")), "{told}");
        if (1..7).contains(&nth) {
            assert!(told.contains(places[nth - 1].1), "{told}");
        }
        let all = [
            &["info", "x.img"][..],
            &["ls", "x.img"],
            &["tree", "x.img"],
            &["cat", "x.img", "/0042"],
            &["get", "x.img", "/0042"],
            &["put", "x.img", "a.txt", "/8"],
            &["put", "-o", "x.img", "a.txt", "/0042"],
            &["mkdir", "x.img", "/B"],
            &["rm", "x.img", "/0042"],
            &["rmdir", "x.img", "/A"],
            &["lock", "x.img", "/0042"],
            &["unlock", "x.img", "/0042"],
        ];
        for words in all {
            let told = folder.status(words, 4).err;
            assert!(told.contains(&format!("refused {number}:")), "{told}");
        }
        folder.status(&["repair", "x.img"], 2);
        assert_eq!(folder.read("x.img"), image, "number {number}");
        assert_eq!(folder.names(), ["a.txt", "x.img"]);
    }
}

/// An entry's place is its own page: of a directory of several, not the first.
#[test]
fn a_place_on_a_further_page() {
    let folder = Folder::new();
    folder.done(&["format", "--v2", "x.img", "4k"]);
    folder.done(&["mkdir", "x.img", "/1", "/2", "/3", "/4", "/5", "/6", "/7", "/8"]); // the root's seven entries, page 9 with the eighth, on 10
    let mut image = folder.read("x.img");
    let at = image.windows(3).position(|bytes| bytes == b"\x818\0").unwrap();
    image[at + 1] = b'/';
    folder.write("x.img", &image);
    let told = folder.status(&["check", "x.img"], 4).out;
    assert!(told.contains(&format!("number 16, entry 0 on page {}:", at / 256)), "{told}");
}

#[test]
fn new_images() {
    let folder = Folder::new();
    let sizes = [("2k", 2048, 256), ("64k", 65_536, 256), ("128k", 131_072, 512), ("256K", 262_144, 512), ("264k", 270_336, 1024)];
    for (size, length, page) in sizes.into_iter().chain([("1m", 1_048_576, 1024), ("1048576", 1_048_576, 1024)]) {
        let name = format!("{size}.img");
        folder.done(&["format", "--v2", &name, size]);
        assert_eq!(folder.read(&name).len(), length);
        assert!(folder.status(&["info", &name], 0).out.contains(&format!("version      2, pages of {page} bytes\n")));
        folder.status(&["check", &name], 0);
        folder.status(&["format", "--v2", &name, size], 8);
    }
    for (page, size) in [("512", "8k"), ("1k", "64k"), ("1024", "256k")] {
        let name = format!("{page}.img");
        folder.done(&["format", "--v2", "--page", page, &name, size]);
        assert!(folder.status(&["info", &name], 0).out.contains("version      2"));
    }
    let names = folder.names();
    let wrong = [
        &["format", "--v2", "new.img", "2m"][..],
        &["format", "--v2", "new.img", "1025k"],
        &["format", "--v2", "new.img", "3000"],
        &["format", "--v2", "new.img", "66k"],
        &["format", "--v2", "new.img", "m"],
        &["format", "--v2", "new.img", ""],
        &["format", "--v2", "--page", "256", "new.img", "128k"],
        &["format", "--v2", "--page=1024", "new.img", "2k"],
        &["format", "--v2", "--page", "2048", "new.img", "64k"],
        &["format", "--v2", "--page", "x", "new.img", "64k"],
        &["format", "--page", "256", "new.img", "64k"],
        &["format", "new.img", "64k", "--page"],
        &["ls", "--page", "256", "512.img"],
        &["ls", "--v2", "512.img"],
    ];
    for words in wrong {
        let ran = folder.status(words, 16);
        assert!(ran.err.starts_with("zealfs: ") && ran.out.is_empty(), "{words:?}: {}", ran.err);
    }
    assert_eq!(folder.names(), names);
    // over an image of the other version, which is kept
    folder.write("x.img", &example());
    folder.expect(&["format", "--v2", "-f", "x.img", "128k"], 0, "x.img: formatted; the image as it was is kept as x.img~\n", "");
    assert_eq!(folder.read("x.img~"), example());
    folder.done(&["mkdir", "x.img", "/A"]);
    let large = folder.read("x.img");
    folder.expect(&["format", "-f", "x.img", "2k"], 0, "x.img: formatted; the image as it was is kept as x.img~2\n", "");
    assert!(folder.read("x.img~2") == large);
    assert!(folder.status(&["info", "x.img"], 0).out.contains("version      1,"));
}

/// What begins as version 2 and is as long as no image, or longer than what is read.
#[test]
fn what_is_no_image() {
    let folder = Folder::new();
    let mut long = vec![0; 1_060_000];
    long[..2].copy_from_slice(b"\x5A\x02");
    folder.write("long.img", &long);
    folder.write("two.img", b"\x5A\x02");
    folder.write("one.img", &long[..70_000]);
    for name in ["long.img", "two.img", "one.img"] {
        assert!(folder.status(&["check", name], 4).out.contains("number 1:"));
        assert!(folder.status(&["mkdir", name, "/A"], 4).err.contains("refused 1:"));
    }
    folder.status(&["format", "--v2", "-f", "long.img", "2k"], 8);
    assert!(folder.read("long.img") == long);
}
