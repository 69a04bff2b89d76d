//! Every command on the sample, on damaged images and on what is no image: its words and its status.

mod common;

use common::{damaged, example, Folder, DAMAGES, DATE};
use std::fs;
use std::io::Write;
use std::os::unix::fs::{symlink, MetadataExt, PermissionsExt};
use std::process::{Command, Stdio};

const LISTING: &str = "pages 8 free 3\nF 256 /0042\nD 256 /A\nF 0 /A/7\n";

#[test]
fn looking_at_the_sample() {
    let folder = Folder::with_example();
    folder.expect(&["check", "loan.img"], 0, "loan.img: in order, 8 pages, 3 free\n", "");
    folder.expect(&["tree", "loan.img"], 0, LISTING, "");
    folder.expect(&["tree", "loan.img", "/A"], 0, "F 0 /A/7\n", "");
    folder.expect(&["ls", "loan.img"], 0, "0042\nA/\n", "");
    folder.expect(&["ls", "loan.img", "/A"], 0, "7\n", "");
    folder.expect(&["ls", "loan.img", "/0042"], 0, "0042\n", "");
    let long = "F -        256 2026-11-07 12:00:00 0042\nD -        256 2026-11-07 12:00:00 A/\n";
    folder.expect(&["ls", "-l", "loan.img"], 0, long, "");
    let map = "      0  header\n    1-2  /0042\n      3  /A\n      4  /A/7\n    5-7  free\n";
    folder.expect(&["map", "loan.img"], 0, map, "");
    let info = "loan.img\nversion      1, pages of 256 bytes\nlength       2048 bytes\npages        8, of which 3 free\nfiles        2 with 256 bytes, of which 0 locked\n\
                directories  1\nroot         2 of 6 entries taken\nroom         765 bytes for a new file\n";
    folder.expect(&["info", "loan.img"], 0, info, "");
    assert_eq!(folder.read("loan.img"), example(), "looking changes nothing");
    assert_eq!(folder.names(), ["loan.img"]);
}

#[test]
fn json_of_everything_that_tells() {
    let folder = Folder::with_example();
    folder.write("lost.img", &damaged(19));
    folder.write("shared.img", &damaged(18));
    folder.expect(&["--json", "check", "loan.img"], 0, "{\"image\":\"loan.img\",\"in_order\":true,\"pages\":8,\"free\":3}\n", "");
    let shared = folder.status(&["check", "shared.img", "--json"], 4).out;
    assert!(
        shared.starts_with(
            "{\"image\":\"shared.img\",\"in_order\":false,\"number\":18,\"place\":\"page 1\",\"path\":\"/0042\",\"other\":\"/A\","
        ),
        "{shared}"
    );
    let file = "{\"path\":\"/0042\",\"kind\":\"file\",\"size\":256,\"locked\":false,\"date\":\"2026-11-07 12:00:00\"}\n";
    let rest = "{\"path\":\"/A\",\"kind\":\"directory\",\"size\":256,\"locked\":false,\"date\":\"2026-11-07 12:00:00\"}\n";
    folder.expect(&["--json", "ls", "loan.img"], 0, &format!("{file}{rest}"), "");
    assert!(folder.status(&["--json", "tree", "loan.img"], 0).out.starts_with(&format!("{file}{rest}")));
    let map = folder.status(&["--json", "map", "loan.img"], 0).out;
    assert_eq!(map.lines().nth(1), Some("{\"first\":1,\"last\":2,\"owner\":\"/0042\"}"));
    let info = "{\"image\":\"loan.img\",\"version\":1,\"page_size\":256,\"bytes\":2048,\"pages\":8,\"free\":3,\"files\":2,\"content\":256,\"locked\":0,\"directories\":1,\"root\":2,\"room\":765}\n";
    folder.expect(&["--json", "info", "loan.img"], 0, info, "");
    let mended = "{\"image\":\"lost.img\",\"mended\":true,\"number\":19,\"kept\":\"lost.img~\"}\n";
    folder.expect(&["--json", "repair", "lost.img"], 1, mended, "");
    let refused = "{\"status\":2,\"image\":\"loan.img\",\"number\":5,\"path\":\"/B\",\"error\":\"a name of the path is not there\",\"advice\":\"look at the listing\"}\n";
    folder.expect(&["--json", "cat", "loan.img", "/B"], 2, "", refused);
    // each line is read by another program, where it is there
    let all =
        [&["check", "loan.img", "shared.img"][..], &["ls", "loan.img"], &["tree", "loan.img"], &["map", "loan.img"], &["info", "loan.img"]];
    for words in all {
        let out = folder.run(&[&["--json"], words].concat()).out;
        let mut reader = match Command::new("python3")
            .args(["-c", "import json,sys\nfor l in sys.stdin: json.loads(l)"])
            .stdin(Stdio::piped())
            .spawn()
        {
            Ok(reader) => reader,
            Err(error) => return eprintln!("json not read by python3: {error}"),
        };
        reader.stdin.take().unwrap().write_all(out.as_bytes()).unwrap();
        assert!(reader.wait().unwrap().success(), "{out}");
    }
}

#[test]
fn in_out_and_away() {
    let folder = Folder::with_example();
    folder.write("a.txt", b"ammonite");
    folder.done(&["put", "--date", DATE, "loan.img", "a.txt", "/A/0043"]);
    folder.expect(&["cat", "loan.img", "/A/0043"], 0, "ammonite", "");
    folder.expect(&["cat", "loan.img", "/A/0043", "/A/7", "/A/0043"], 0, "ammoniteammonite", "");
    folder.done(&["get", "loan.img", "/A/0043"]);
    assert_eq!(folder.read("0043"), b"ammonite");
    folder.done(&["get", "loan.img", "/A/0043", "b.txt"]);
    folder.expect(&["get", "loan.img", "/A/0043", "-"], 0, "ammonite", "");
    folder.done(&["put", "loan.img", "a.txt", "/A/-"]);
    folder.done(&["get", "loan.img", "/A/-"]);
    assert_eq!(folder.read("-"), b"ammonite");
    folder.done(&["rm", "loan.img", "/A/-"]);
    folder.expect(&["get", "loan.img", "/A/0043", "b.txt"], 8, "", "zealfs: b.txt: File exists (os error 17)\n");
    let there = "zealfs: loan.img: /A/0043: refused 8: the name is there already\n  what to do: choose another, or remove the old one\n";
    folder.expect(&["put", "loan.img", "b.txt", "/A/0043"], 2, "", there);
    folder.write("b.txt", b"belemnite, longer");
    folder.done(&["put", "-o", "--date=2026-11-16", "loan.img", "b.txt", "/A/0043"]);
    folder.done(&["get", "-o", "loan.img", "/A/0043", "a.txt"]);
    assert_eq!(folder.read("a.txt"), b"belemnite, longer");
    folder.expect(&["ls", "-l", "loan.img", "/A/0043"], 0, "F -         17 2026-11-16 00:00:00 0043\n", "");
    folder.done(&["lock", "loan.img", "/A/0043"]);
    folder.expect(&["ls", "-l", "loan.img", "/A/0043"], 0, "F locked    17 2026-11-16 00:00:00 0043\n", "");
    let locked = "zealfs: loan.img: /A/0043: refused 25: the file is locked: it is neither written nor removed\n  \
                  what to do: leave it as it is; if it is to be altered after all, let whoever answers for it unlock it first\n";
    folder.expect(&["rm", "loan.img", "/A/0043"], 2, "", locked);
    folder.expect(&["put", "-o", "loan.img", "b.txt", "/A/0043"], 2, "", locked);
    folder.done(&["lock", "loan.img", "/A/0043"]);
    folder.done(&["unlock", "loan.img", "/A/0043"]);
    folder.done(&["rm", "loan.img", "/A/0043", "/A/7"]);
    folder.status(&["rm", "loan.img", "/A"], 2);
    folder.status(&["rmdir", "loan.img", "/0042"], 2);
    folder.done(&["rmdir", "loan.img", "/A"]);
    folder.done(&["mkdir", "loan.img", "/B", "/B/C"]);
    folder.expect(&["tree", "loan.img"], 0, "pages 8 free 3\nF 256 /0042\nD 256 /B\nD 256 /B/C\n", "");
    // all or nothing
    let before = folder.read("loan.img");
    folder.status(&["mkdir", "loan.img", "/D", "/B"], 2);
    folder.status(&["rm", "loan.img", "/0042", "/nothing"], 2);
    assert_eq!(folder.read("loan.img"), before);
    assert_eq!(folder.names(), ["-", "0043", "a.txt", "b.txt", "loan.img"], "nothing is left over");
}

#[test]
fn standard_input_and_output() {
    let folder = Folder::with_example();
    let feed = |words: &[&str], bytes: &[u8]| {
        let mut command = folder.command(words);
        let mut child = command.stdin(Stdio::piped()).stdout(Stdio::piped()).stderr(Stdio::piped()).spawn().unwrap();
        let _ = child.stdin.take().unwrap().write_all(bytes);
        common::Ran::of(child.wait_with_output().unwrap())
    };
    assert_eq!(feed(&["put", "loan.img", "-", "/8"], b"nautilus").status, Some(0));
    folder.expect(&["cat", "loan.img", "/8"], 0, "nautilus", "");
    assert_eq!(feed(&["tree", "-"], &example()).out, LISTING);
    assert_eq!(feed(&["check", "-"], &[0; 70_000]).status, Some(4));
    // a file that is too long for any cartridge
    let refused = feed(&["put", "loan.img", "-", "/9"], &vec![0; 200_000]);
    assert_eq!((refused.status, refused.err.contains("refused 10")), (Some(2), true));
    let full = folder.command(&["tree", "loan.img"]).stdout(fs::File::create("/dev/full").unwrap()).output().unwrap();
    assert_eq!(full.status.code(), Some(8));
}

#[test]
fn damaged_images() {
    let paths = [(16, "(\"/042\" in /)"), (17, "(/0042)"), (18, "(/0042 and /A)"), (20, "(/A/7)")];
    for (number, ..) in DAMAGES {
        let folder = Folder::new();
        let image = damaged(number);
        folder.write("x.img", &image);
        folder.write("a.txt", b"a");
        let told = folder.status(&["check", "x.img"], 4).out;
        assert!(told.starts_with(&format!("x.img: not in order, number {number}")), "{told}");
        if let Some((_, path)) = paths.iter().find(|path| path.0 == number) {
            assert!(told.contains(path), "{told} should name {path}");
        }
        let looks = [
            &["info", "x.img"][..],
            &["map", "x.img"],
            &["ls", "x.img"],
            &["tree", "x.img"],
            &["cat", "x.img", "/0042"],
            &["get", "x.img", "/0042"],
        ];
        let changes = [
            &["put", "x.img", "a.txt", "/8"][..],
            &["put", "-o", "x.img", "a.txt", "/0042"],
            &["mkdir", "x.img", "/B"],
            &["rm", "x.img", "/0042"],
            &["rmdir", "x.img", "/A"],
            &["lock", "x.img", "/0042"],
            &["unlock", "x.img", "/0042"],
            &["repair", "-n", "x.img"],
        ];
        for words in looks.iter().chain(&changes) {
            let ran = folder.status(words, 4);
            let told = if words[0] == "repair" { ran.out } else { ran.err };
            assert!(told.contains(&format!("refused {number}:")) || words[0] == "repair", "{told}");
        }
        assert_eq!(folder.read("x.img"), image, "number {number}");
        assert_eq!(folder.names(), ["a.txt", "x.img"]);
        let mends = matches!(number, 3 | 19);
        folder.status(&["repair", "x.img"], if mends { 1 } else { 4 });
        if mends {
            assert_eq!(folder.read("x.img"), example(), "number {number}");
            assert_eq!(folder.read("x.img~"), image);
            folder.expect(&["repair", "x.img"], 0, "x.img: in order, nothing to mend\n", "");
        } else {
            assert_eq!(folder.read("x.img"), image);
        }
    }
}

#[test]
fn what_is_kept_is_not_lost_to_the_next() {
    let folder = Folder::new();
    folder.write("x.img", &damaged(19));
    folder.status(&["repair", "x.img"], 1);
    folder.write("x.img", &damaged(3));
    let told = folder.status(&["repair", "x.img"], 1).out;
    assert!(told.ends_with("kept as x.img~2\n"), "{told}");
    assert_eq!((folder.read("x.img~"), folder.read("x.img~2")), (damaged(19), damaged(3)));
    folder.expect(&["format", "-f", "x.img", "4k"], 0, "x.img: formatted; the image as it was is kept as x.img~3\n", "");
    assert_eq!(folder.read("x.img~3"), example());
    // what is kept already is not kept twice
    folder.write("x.img", &damaged(3));
    assert!(folder.status(&["repair", "x.img"], 1).out.ends_with("kept as x.img~2\n"));
}

#[test]
fn faults_are_named_by_path() {
    let folder = Folder::new();
    folder.done(&["format", "x.img", "8k"]);
    folder.write("long", &[7; 600]);
    folder.write("short", b"a");
    folder.done(&["mkdir", "x.img", "/A", "/A/B"]);
    folder.done(&["put", "x.img", "long", "/A/B/long"]); // pages 3, 4, 5
    folder.done(&["put", "x.img", "short", "/A/short"]); // page 6
    folder.done(&["put", "x.img", "short", "/other"]); // page 7
    let image = folder.read("x.img");
    let cases: [(&[(usize, u8)], &str); 8] = [
        // the chain of /A/B/long ends too early, or returns to itself
        (&[(3 * 256, 0)], "number 17, entry 0 of the directory on page 2, after 1 good page (/A/B/long)"),
        (&[(5 * 256, 3)], "number 17, entry 0 of the directory on page 2, after 3 good pages (/A/B/long)"),
        (&[(4 * 256, 3)], "number 18, page 3 (/A/B/long)"),
        // /other on a page of /A/B/long, and on that of /A
        (&[(96 + 17, 5)], "number 18, page 5 (/A/B/long and /other)"),
        (&[(96 + 17, 1)], "number 18, page 1 (/A and /other)"),
        // /A/short on the page of /A, its own directory
        (&[(256 + 32 + 17, 1)], "number 18, page 1 (/A and /A/short)"),
        (&[(4, 0xBF)], "number 20, page 6 (/A/short)"),
        // two faults: the second does not hide the first
        (&[(512 + 1, 0x07), (96 + 17, 200)], "number 16, entry 0 of the directory on page 2 (\"\\u{7}ong\" in /A/B)"),
    ];
    for (changes, expected) in cases {
        let mut damaged = image.clone();
        for &(at, byte) in changes {
            damaged[at] = byte;
        }
        folder.write("y.img", &damaged);
        let told = folder.status(&["check", "y.img"], 4).out;
        assert!(told.contains(expected), "{told}should say {expected}");
    }
}

#[test]
fn what_is_no_image() {
    let folder = Folder::new();
    folder.write("empty.img", b"");
    folder.write("zeros.img", &[0; 2048]);
    folder.write("long.img", &vec![0; 1_050_000]);
    fs::create_dir(folder.path("folder")).unwrap();
    assert!(Command::new("mkfifo").arg(folder.path("pipe")).status().unwrap().success());
    let expected = [("empty.img", 4), ("zeros.img", 4), ("long.img", 4), ("folder", 8), ("pipe", 8), ("nowhere.img", 8), ("/dev/null", 8)];
    for (name, status) in expected {
        for words in [&["check", name][..], &["tree", name], &["ls", name], &["repair", name], &["mkdir", name, "/A"], &["rm", name, "/A"]]
        {
            folder.status(words, status);
        }
        if name != "nowhere.img" {
            folder.status(&["format", name, "2k"], 8);
        }
    }
    folder.status(&["check", "empty.img", "pipe"], 12);
    folder.expect(&["tree", "pipe"], 8, "", "zealfs: pipe: not a regular file\n");
    folder.expect(&["tree", "nowhere.img"], 8, "", "zealfs: nowhere.img: No such file or directory (os error 2)\n");
    folder.status(&["format", "-f", "pipe", "2k"], 8);
    // what is longer than any cartridge could not be kept whole, so it is not formatted either
    folder.expect(
        &["format", "-f", "long.img", "2k"],
        8,
        "",
        "zealfs: long.img: the file is longer than any cartridge, so that it is no image; nothing was done\n",
    );
    assert_eq!(folder.read("long.img"), vec![0; 1_050_000]);
    assert_eq!(folder.names(), ["empty.img", "folder", "long.img", "pipe", "zeros.img"]);
}

#[test]
fn several_images_and_their_statuses() {
    let folder = Folder::with_example();
    folder.write("lost.img", &damaged(19));
    folder.write("shared.img", &damaged(18));
    let ran = folder.status(&["check", "loan.img", "shared.img", "nowhere.img", "lost.img"], 12);
    assert_eq!(ran.out.lines().filter(|line| !line.starts_with(' ')).count(), 3);
    folder.status(&["repair", "loan.img", "lost.img", "shared.img"], 5);
    folder.status(&["repair", "loan.img", "lost.img"], 0);
}

#[test]
fn wrong_words() {
    let folder = Folder::with_example();
    let before = folder.read("loan.img");
    let wrong = [
        &[][..],
        &["nonsense", "loan.img"],
        &["check"],
        &["tree"],
        &["tree", "loan.img", "/", "/"],
        &["ls", "-x", "loan.img"],
        &["rm", "loan.img"],
        &["rm", "-l", "loan.img", "/A"],
        &["put", "loan.img", "/A"],
        &["put", "--date", "yesterday", "loan.img", "loan.img", "/B"],
        &["put", "--date"],
        &["tree", "--date", DATE, "loan.img"],
        &["format", "new.img"],
        &["format", "new.img", "3000"],
        &["format", "new.img", "66k"],
        &["format", "new.img", "1m"],
        &["format", "new.img", "0"],
        &["format", "new.img", "-1"],
        &["format", "new.img", "99999999999999999999k"],
    ];
    for words in wrong {
        let ran = folder.status(words, 16);
        assert!(ran.err.starts_with("zealfs: ") && ran.out.is_empty(), "{words:?}: {}", ran.err);
    }
    // a date that is written well and does not exist is the library's to refuse, as is a path that is none
    folder.status(&["mkdir", "--date", "2026-02-31", "loan.img", "/B"], 2);
    folder.status(&["mkdir", "loan.img", "B"], 2);
    folder.status(&["mkdir", "loan.img", ""], 2);
    assert_eq!(folder.read("loan.img"), before);
    assert_eq!(folder.names(), ["loan.img"]);
    assert!(folder.status(&["help"], 0).out.starts_with("usage: zealfs COMMAND"));
    assert!(folder.status(&["ls", "--help"], 0).out.starts_with("usage: zealfs ls [-l] IMAGE"));
    assert!(folder.status(&["--version"], 0).out.starts_with("zealfs "));
}

#[test]
fn every_number_by_the_tool() {
    let folder = Folder::with_example();
    folder.write("long", &[0; 766]);
    folder.write("a", b"a");
    let long_name = format!("/{}", "n".repeat(17));
    let expected = [
        (4, vec!["cat", "loan.img", &long_name]),
        (5, vec!["cat", "loan.img", "/00042"]),
        (5, vec!["put", "loan.img", "a", "/B/1"]),
        (6, vec!["cat", "loan.img", "/0042/1"]),
        (6, vec!["rmdir", "loan.img", "/0042"]),
        (7, vec!["cat", "loan.img", "/A"]),
        (7, vec!["rm", "loan.img", "/A"]),
        (7, vec!["lock", "loan.img", "/"]),
        (8, vec!["mkdir", "loan.img", "/0042"]),
        (8, vec!["mkdir", "loan.img", "/"]),
        (9, vec!["mkdir", "loan.img", "/1", "/2", "/3", "/A/4", "/5"]),
        (10, vec!["put", "loan.img", "long", "/B"]),
        (11, vec!["mkdir", "--date", "2026-02-31", "loan.img", "/B"]),
        (13, vec!["rmdir", "loan.img", "/A"]),
        (14, vec!["rmdir", "loan.img", "/"]),
        (14, vec!["rm", "loan.img", "/"]),
    ];
    for (number, words) in expected {
        let ran = folder.status(&words, 2);
        // nine needs a directory with no entry left, which ten forestalls on so small a cartridge
        let told = format!("refused {number}: {}\n", zealfs::text(number));
        assert!(ran.err.contains(&told) || number == 9, "{words:?}: {} should tell {told}", ran.err);
    }
    folder.done(&["format", "big.img", "64k"]);
    let seven = ["mkdir", "big.img", "/1", "/2", "/3", "/4", "/5", "/6", "/7"];
    assert!(folder.status(&seven, 2).err.starts_with("zealfs: big.img: /7: refused 9:"));
    assert_eq!(folder.read("loan.img"), example());
}

#[test]
fn a_path_is_told_up_to_where_it_fails() {
    let folder = Folder::with_example();
    assert!(folder.status(&["cat", "loan.img", "/A/8/9"], 2).err.starts_with("zealfs: loan.img: /A/8: refused 5:"));
    assert!(folder.status(&["cat", "loan.img", "/A/7/9/1"], 2).err.starts_with("zealfs: loan.img: /A/7: refused 6:"));
    // bytes that would do something on a terminal are shown as numbers
    let told = folder.status(&["cat", "loan.img", "/\u{1b}[31m\r"], 2).err;
    assert!(told.starts_with("zealfs: loan.img: /\\u{1b}[31m\\r: refused 4:"), "{told}");
}

#[test]
fn mode_links_and_protection() {
    let folder = Folder::with_example();
    let image = folder.path("loan.img");
    fs::set_permissions(&image, fs::Permissions::from_mode(0o640)).unwrap();
    symlink("loan.img", folder.path("link.img")).unwrap();
    folder.done(&["mkdir", "link.img", "/B"]);
    assert!(fs::symlink_metadata(folder.path("link.img")).unwrap().is_symlink(), "a symbolic link stays one");
    assert_eq!(fs::metadata(&image).unwrap().mode() & 0o7777, 0o640);
    assert!(folder.status(&["ls", "loan.img"], 0).out.contains("B/"));
    fs::set_permissions(&image, fs::Permissions::from_mode(0o444)).unwrap();
    folder.status(&["mkdir", "loan.img", "/C"], 8);
    fs::set_permissions(&image, fs::Permissions::from_mode(0o600)).unwrap();
    let mut lost = folder.read("loan.img");
    lost[4] |= 0x80;
    folder.write("loan.img", &lost);
    folder.status(&["repair", "loan.img"], 1);
    assert_eq!(fs::metadata(folder.path("loan.img~")).unwrap().mode() & 0o777, 0o600, "what is kept is no more open than the image");
    symlink("nowhere", folder.path("dangling.img")).unwrap();
    folder.status(&["tree", "dangling.img"], 8);
    folder.status(&["format", "dangling.img", "2k"], 8);
}

#[test]
fn new_images() {
    let folder = Folder::new();
    for (size, length) in [("2048", 2048), ("2k", 2048), ("64k", 65536), ("64K", 65536), ("6144", 6144)] {
        let name = format!("{size}.img");
        folder.done(&["format", &name, size]);
        assert_eq!(folder.read(&name).len(), length);
        folder.status(&["check", &name], 0);
        folder.status(&["format", &name, size], 8);
    }
    folder.done(&["format", "-f", "new.img", "2k"]);
    assert!(!folder.has("new.img~"));
}

#[test]
fn the_deepest_image() {
    let folder = Folder::new();
    folder.done(&["format", "nest.img", "64k"]);
    let mut path = String::new();
    let mut words = vec!["mkdir".to_owned(), "nest.img".to_owned()];
    for _ in 0..255 {
        path += "/abcdefghijklmnop";
        words.push(path.clone());
    }
    folder.done(&words.iter().map(String::as_str).collect::<Vec<_>>());
    assert_eq!(folder.status(&["tree", "nest.img"], 0).out.lines().count(), 256);
    assert_eq!(folder.status(&["--json", "tree", "nest.img"], 0).out.lines().count(), 255);
    assert_eq!(folder.status(&["map", "nest.img"], 0).out.lines().last(), Some(format!("{:>7}  {path}", 255).as_str()));
    folder.status(&["info", "nest.img"], 0);
    // the last directory leads back to the page of the first
    let mut image = folder.read("nest.img");
    image[254 * 256 + 17] = 1;
    folder.write("nest.img", &image);
    let told = folder.status(&["check", "nest.img"], 4).out;
    assert!(told.contains(&format!("number 18, page 1 (/abcdefghijklmnop and {path})")), "{}", &told[..200]);
}

#[test]
fn what_was_left_is_told() {
    let folder = Folder::with_example();
    folder.write(".loan.img.12345-0.tmp", b"half");
    let told = folder.status(&["check", "loan.img"], 0).out;
    assert!(told.contains(".loan.img.12345-0.tmp is left of a run that was stopped"), "{told}");
    symlink("loan.img", folder.path("link.img")).unwrap();
    assert!(folder.status(&["check", "link.img"], 0).out.contains(".loan.img.12345-0.tmp is left"));
    folder.done(&["mkdir", "loan.img", "/B"]);
}

/// Bytes at random in the places that matter: whatever comes, check says one thing of each image.
#[test]
fn images_damaged_at_random() {
    let folder = Folder::new();
    folder.done(&["format", "x.img", "8k"]);
    folder.write("long", &[7; 600]);
    folder.done(&["mkdir", "x.img", "/A", "/A/B", "/C"]);
    for path in ["/1", "/A/2", "/A/B/3", "/C/4"] {
        folder.done(&["put", "x.img", "long", path]);
    }
    let image = folder.read("x.img");
    let mut state: u64 = 0x5A01;
    let mut next = |below: usize| {
        state = state.wrapping_mul(6364136223846793005).wrapping_add(1442695040888963407);
        (state >> 33) as usize % below
    };
    let names: Vec<String> = (0..400).map(|number| format!("{number}.img")).collect();
    for name in &names {
        let mut damaged = image.clone();
        for _ in 0..1 + next(4) {
            let at = match next(3) {
                0 => next(256),
                1 => 256 * next(20),
                _ => 256 * next(4) + 32 * next(8) + [0, 1, 17, 18][next(4)],
            };
            let below = [256, 20][next(2)];
            damaged[at] = next(below) as u8;
        }
        folder.write(name, &damaged);
    }
    let words: Vec<&str> = ["check"].into_iter().chain(names.iter().map(String::as_str)).collect();
    let told = folder.status(&words, 4).out;
    assert_eq!(told.lines().filter(|line| !line.starts_with("  ")).count(), names.len());
    for number in [3, 16, 17, 18, 19, 20] {
        assert!(told.contains(&format!("not in order, number {number}")), "number {number} is not met");
    }
    let is_named = |line: &&str| line.contains("(/") || line.contains("(\"");
    let named = told.lines().filter(is_named).count();
    let nameable =
        told.lines().filter(|line| ["16", "17", "18", "20"].iter().any(|number| line.contains(&format!("number {number},")))).count();
    assert!(named * 10 >= nameable * 9, "{named} of {nameable} are named by path");
}

/// Every entry bad and pages shared: the paths are given up, and not the answer.
#[test]
fn an_image_made_to_be_slow() {
    let folder = Folder::new();
    folder.done(&["format", "x.img", "64k"]);
    let mut image = folder.read("x.img");
    for slot in 0..6 {
        image[64 + 32 * slot..64 + 32 * slot + 20].copy_from_slice(b"\x81A\0\0\0\0\0\0\0\0\0\0\0\0\0\0\0\x01\0\x01");
        image[64 + 32 * slot + 1] = b'A' + slot as u8;
    }
    for entry in (256..65536).step_by(32) {
        image[entry..entry + 20].copy_from_slice(b"\x80/\0\0\0\0\0\0\0\0\0\0\0\0\0\0\0\x05\x01\0");
    }
    image[4..36].fill(0xFF);
    folder.write("x.img", &image);
    let started = std::time::Instant::now();
    folder.status(&["check", "x.img"], 4);
    assert!(started.elapsed().as_secs() < 20, "{:?}", started.elapsed());
}

#[test]
fn the_words_of_a_number() {
    let folder = Folder::new();
    folder.expect(&["help", "10"], 0, "10: not enough free pages\n  what to do: remove something, or take another cartridge\n", "");
    for word in ["15", "0", "300", "x"] {
        folder.status(&["help", word], 16);
    }
}

#[test]
fn the_clock_is_that_of_the_desk() {
    let folder = Folder::with_example();
    let hour_in = |zone: &str, path: &str| -> i32 {
        assert!(folder.command(&["mkdir", "loan.img", path]).env("TZ", zone).status().unwrap().success());
        let listed = folder.run(&["--json", "ls", "loan.img", "/"]).out;
        let row = listed.lines().find(|line| line.contains(&format!("\"{path}\""))).unwrap().to_owned();
        row.split_once("\"date\":\"").unwrap().1[11..13].parse().unwrap()
    };
    // five hours west and five east of Greenwich; the clock may strike between the two
    let (west, east) = (hour_in("AAA+5", "/W"), hour_in("BBB-5", "/E"));
    assert!([10, 11].contains(&((east - west).rem_euclid(24))), "{west} {east}");
}
