#!/usr/bin/env python3
"""The words of the numbers, from their one source words/numbers.txt to every place that shows them; and README's table of commands.

    tools/words.py          writes README.md's tables, include/zealfs.h's enum, lib/zealfs_text.c, rust/zealfs/src/words.rs and the table of
                            python/zealfs.py
    tools/words.py check    says which of them differs from the source, and then exits 1
    tools/words.py json     prints them as JSON, for a page
"""
import json
import pathlib
import re
import sys
import textwrap

ROOT = pathlib.Path(__file__).resolve().parent.parent
MADE = "Made from words/numbers.txt by tools/words.py; edit it there."


def features():
    """The features that are on: the default ones of the Rust crate, the one place that says which requests have landed."""
    text = (ROOT / "rust/zealfs/Cargo.toml").read_text()
    return re.findall(r'"(.*?)"', re.search(r"^default = \[(.*?)\]", text, re.M).group(1))


def numbers():
    """(number, name, {when, is, do}) of every number that is on, in order."""
    rows, on = [], features()
    for line in (ROOT / "words/numbers.txt").read_text().splitlines():
        if not line or line.startswith("#"):
            continue
        if line.startswith("  "):
            key, text = line.split(None, 1)
            rows[-1][2][key] = text
        else:
            number, name, *feature = line.split()
            rows.append((int(number), name, {"feature": feature[0] if feature else None}))
    for number, name, words in rows:
        assert words.keys() == {"feature", "when", "is", "do"}, f"{number} {name} lacks words"
    assert [row[0] for row in rows] == sorted({row[0] for row in rows}), "the numbers do not rise"
    return [row for row in rows if row[2]["feature"] in (None, *on)]


def constant(name):
    return "ZEALFS_" + re.sub(r"(?<!^)([A-Z])", r"_\1", name).upper()


def alone(rows, words):
    """Words that can stand without the table: `as for 16` is replaced by what is said there, and no mark-up."""
    found = re.match(r"as for (\d+)", words)
    if found:
        other = next(row[2]["do"] for row in rows if row[0] == int(found.group(1)))
        words = other + words[found.end():]
    return words.replace("`", "")


def readme(rows):
    lines = ["| number | what is wrong | what to do |", "|---|---|---|"]
    return lines + [f"| {number} | {words['is']} | {words['do']} |" for number, _, words in rows]


def commands():
    lines, on = ["| to | command |", "|---|---|"], features()
    for line in (ROOT / "words/commands.txt").read_text().splitlines():
        if line.startswith("#"):
            continue
        wanted, command, *feature = line.split(" | ")
        if set(feature) <= set(on):
            lines.append(f"| {wanted} | {command} |")
    return lines


def header(rows):
    lines = ["enum zealfs_numbers {", "    ZEALFS_GRANTED = 0,"]
    for number, name, words in rows:
        lines.append(f"    {constant(name)} = {number},")
        text = textwrap.wrap(words["when"] + " */", 132)
        lines += [("        /* " if i == 0 else "           ") + part for i, part in enumerate(text)]
    return lines + ["};"]


def c_text(rows):
    def function(name, key, granted):
        lines = [f"const char *{name}(unsigned number)", "{", "    switch (number) {", f'    case 0: return "{granted}";']
        for number, _, words in rows:
            text = alone(rows, words[key]).replace('"', '\\"')
            lines.append(f'    case {number}: return "{text}";')
        return lines + ['    default: return "";', "    }", "}"]

    lines = [f"/* {MADE} Words alone: no image byte is looked at here. */", '#include "zealfs.h"', ""]
    lines += function("zealfs_text", "is", "done") + [""] + function("zealfs_advice", "do", "")
    return lines


def rust(rows):
    lines = [f"// {MADE}", "", "/// Number, name, what is wrong, what to do.", "pub type Words = (u8, &'static str, &'static str, &'static str);", ""]
    lines += ["/// All numbers, in order.", "pub const WORDS: &[Words] = &["]
    for number, name, words in rows:
        texts = [alone(rows, words[key]).replace('"', '\\"') for key in ("is", "do")]
        lines += ["    (", f"        {number},", f'        "{name}",', f'        "{texts[0]}",', f'        "{texts[1]}",', "    ),"]
    return lines + ["];"]


def python(rows):
    lines = ["WORDS = {"]
    for number, name, words in rows:
        texts = [json.dumps(alone(rows, words[key]), ensure_ascii=False) for key in ("is", "do")]
        lines += [f'    {number}: ("{name}",', f"         {texts[0]},", f"         {texts[1]}),"]
    return lines + ["}"]


def between(text, first, last, lines):
    """The text with the lines between two marks exchanged."""
    before, rest = text.split(first + "\n", 1)
    after = rest.split(last + "\n", 1)[1]
    return before + first + "\n" + "\n".join(lines) + "\n" + last + "\n" + after


def made():
    rows = numbers()
    page = (ROOT / "README.md").read_text()
    page = between(page, "<!-- commands: made from words/commands.txt by tools/words.py -->\n", "\n<!-- end of commands -->", commands())
    yield "README.md", between(page, "<!-- numbers: " + MADE + " -->\n", "\n<!-- end of numbers -->", readme(rows))
    c_header = (ROOT / "include/zealfs.h").read_text()
    yield "include/zealfs.h", between(c_header, "/* " + MADE + " */", "/* end of numbers */", header(rows))
    yield "lib/zealfs_text.c", "\n".join(c_text(rows)) + "\n"
    yield "rust/zealfs/src/words.rs", "\n".join(rust(rows)) + "\n"
    module = (ROOT / "python/zealfs.py").read_text()
    yield "python/zealfs.py", between(module, "# " + MADE, "# end of numbers", python(rows))


def main():
    if sys.argv[1:] == ["json"]:
        rows = numbers()
        words = {number: {"name": name, "is": alone(rows, words["is"]), "do": alone(rows, words["do"])} for number, name, words in rows}
        return print(json.dumps(words, indent=1))
    is_check = sys.argv[1:] == ["check"]
    if sys.argv[1:] and not is_check:
        sys.exit(__doc__)
    differing = []
    for path, text in made():
        target = ROOT / path
        if is_check:
            if not target.exists() or target.read_text() != text:
                differing.append(path)
        else:
            target.write_text(text)
    if differing:
        sys.exit(f"words: not as words/numbers.txt has them: {', '.join(differing)}; run make words")
    if is_check:
        print(f"words: {len(numbers())} numbers, the same in README.md, zealfs.h, zealfs_text.c, words.rs and zealfs.py")


main()
