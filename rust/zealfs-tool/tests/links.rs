//! The link list by the tool, from and to a table.
#![cfg(has_links)]

mod common;

use common::{Folder, DATE};

fn folder() -> Folder {
    let folder = Folder::new();
    folder.done(&["format", "loan.img", "8k"]);
    folder.done(&["mkdir", "loan.img", "/A"]);
    folder.write("a", b"a");
    for path in ["/A/42", "/A/0042", "/A/7"] {
        folder.done(&["put", "loan.img", "a", path]);
    }
    folder
}

#[test]
fn a_table_in_and_out() {
    let folder = folder();
    folder.write("table", b"0042 12 # the holotype\n\n# drawer 3\n42\t7\n7 4294967295\n");
    folder.done(&["links", "write", "--date", DATE, "loan.img", "/A", "table"]);
    folder.expect(&["links", "show", "loan.img", "/A"], 0, "7 4294967295\n42 7\n0042 12\n", "");
    folder.expect(&["links", "find", "loan.img", "/A", "0042"], 0, "12\n", "");
    folder.expect(&["links", "find", "loan.img", "/A", "00042"], 0, "none\n", "");
    folder.expect(&["--json", "links", "find", "loan.img", "/A", "00042"], 0, "{\"accession\":\"00042\",\"found\":false}\n", "");
    folder.expect(&["links", "check", "loan.img", "/A"], 0, "loan.img: every row of the link list has its file\n", "");
    folder.expect(&["--json", "links", "find", "loan.img", "/A", "42"], 0, "{\"accession\":\"42\",\"found\":true,\"figure\":7}\n", "");
    let first = folder.status(&["--json", "links", "show", "loan.img", "/A"], 0).out;
    assert!(first.starts_with("{\"accession\":\"7\",\"figure\":4294967295}\n"), "{first}");
    // what is shown can be written again
    folder.write("table", folder.run(&["links", "show", "loan.img", "/A"]).out.as_bytes());
    folder.done(&["links", "write", "loan.img", "/A", "table"]);
    folder.expect(&["links", "show", "loan.img", "/A"], 0, "7 4294967295\n42 7\n0042 12\n", "");
    folder.done(&["rm", "loan.img", "/A/42"]);
    let missing = folder.status(&["links", "check", "loan.img", "/A"], 2).out;
    assert!(missing.starts_with("loan.img: row 1, accession 42: refused 23:"), "{missing}");
}

#[test]
fn what_is_refused() {
    let folder = folder();
    let before = folder.read("loan.img");
    folder.write("twice", b"42 1\n7 2\n42 3\n");
    let told = folder.status(&["links", "write", "loan.img", "/A", "twice"], 2).err;
    assert!(told.starts_with("zealfs: loan.img: twice, line 3: refused 22:"), "{told}");
    folder.write("large", b"7 2\n42 4294967296\n");
    let told = folder.status(&["links", "write", "loan.img", "/A", "large"], 2).err;
    assert!(told.starts_with("zealfs: loan.img: large, line 2: refused 21:"), "{told}");
    for wrong in ["42", "42 1 2", "A 1", "-1 1", "42 x", "12345678901234567 1"] {
        folder.write("wrong", wrong.as_bytes());
        folder.status(&["links", "write", "loan.img", "/A", "wrong"], 16);
    }
    // there is no list yet
    let missing = folder.status(&["links", "show", "loan.img", "/A"], 2).err;
    assert!(missing.starts_with("zealfs: loan.img: /A/LINKS: refused 5:"), "{missing}");
    assert!(folder.status(&["links", "check", "loan.img", "/"], 2).err.starts_with("zealfs: loan.img: /LINKS: refused 5:"));
    folder.status(&["links", "find", "loan.img", "/A", "42"], 2);
    folder.status(&["links", "check", "loan.img", "/"], 2);
    folder.status(&["links", "find", "loan.img", "/A", "4x"], 16);
    folder.status(&["links", "sort", "loan.img", "/A"], 16);
    folder.status(&["links", "show", "loan.img"], 16);
    folder.status(&["links", "show", "nowhere.img", "/A"], 8);
    folder.write("empty.img", b"");
    folder.status(&["links", "show", "empty.img", "/A"], 4);
    assert_eq!(folder.read("loan.img"), before);
}

/// A directory named LINKS, a locked list, one that is broken, a full image, and a date that does not exist.
#[test]
fn lists_that_cannot_be_written_or_read() {
    let folder = folder();
    folder.write("table", b"42 1\n");
    folder.done(&["mkdir", "loan.img", "/A/LINKS"]);
    let told = folder.status(&["links", "write", "loan.img", "/A", "table"], 2).err;
    assert!(told.starts_with("zealfs: loan.img: /A/LINKS: refused 7:"), "{told}");
    folder.done(&["rmdir", "loan.img", "/A/LINKS"]);
    assert!(folder.status(&["links", "write", "--date", "2026-02-31", "loan.img", "/A", "table"], 2).err.contains("refused 11:"));
    folder.done(&["links", "write", "loan.img", "/A", "table"]);
    folder.done(&["lock", "loan.img", "/A/LINKS"]);
    assert!(folder.status(&["links", "write", "loan.img", "/A", "table"], 2).err.contains("refused 25:"));
    folder.expect(&["links", "find", "loan.img", "/A", "42"], 0, "1\n", "");
    folder.done(&["unlock", "loan.img", "/A/LINKS"]);
    let rows: String = (0..2000).map(|number| format!("{number:04} {number}\n")).collect();
    folder.write("many", rows.as_bytes());
    assert!(folder.status(&["links", "write", "loan.img", "/A", "many"], 2).err.contains("refused 10:"));
    folder.write("broken", b"\x01\x07\x01\x02\x81\x00\x01");
    folder.done(&["put", "-o", "loan.img", "broken", "/A/LINKS"]);
    for words in
        [&["links", "show", "loan.img", "/A"][..], &["links", "check", "loan.img", "/A"], &["links", "find", "loan.img", "/A", "7"]]
    {
        let told = folder.status(words, 2).err;
        assert!(told.starts_with("zealfs: loan.img: /A/LINKS: refused 21:"), "{told}");
    }
    // a table of no rows makes an empty list
    folder.write("none", b"# nothing yet\n");
    folder.done(&["links", "write", "loan.img", "/A", "none"]);
    folder.expect(&["links", "show", "loan.img", "/A"], 0, "", "");
    folder.expect(&["links", "check", "loan.img", "/A"], 0, "loan.img: every row of the link list has its file\n", "");
}
