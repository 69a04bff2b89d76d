#!/usr/bin/env python3
"""Replays the list of calls of crates/calls on a plain tree, and prints each call with its answer: the program's stored output.

    tools/replay.py > crates/calls/stdout

The tree is that of document 01, "The plain tree": rows of entries, each empty or with a name, a date and a byte string or a row. It has
no image, no page numbers and no chains; of pages it knows N and how many are free. The list below is that of crates/calls/src/main.rt,
in the same order, and what is answered follows from the calls' arguments alone.
"""
import calendar
import sys

N = 8
PAGE_CONTENT = 255
NO_DATE = bytes(8)


class Refused(Exception):
    """A refusal: its number, and its place where it has one."""

    def __init__(self, number, place=0):
        self.number, self.place = number, place


# ---- the tree

class File:
    def __init__(self, name, date):
        self.name, self.date, self.content, self.locked = name, date, b"", False

    def told(self):
        return "file", " locked" if self.locked else "", len(self.content)

    def pages(self):
        return pages_for(len(self.content))


class Directory:
    def __init__(self, name, date, width):
        self.name, self.date, self.entries = name, date, [None] * width

    def told(self):
        return "directory", "", 256

    def pages(self):
        return 1 + self.pages_below()

    def pages_below(self):
        return sum(entry.pages() for entry in self.held())

    def held(self):
        return [entry for entry in self.entries if entry is not None]

    def look_up(self, name):
        return next((entry for entry in self.held() if entry.name == name), None)


def fresh_root():
    return Directory(b"", NO_DATE, 6)


def pages_for(size):
    """The pages of a file; an empty one has a page too (document 02 §1)."""
    return max(1, -(-size // PAGE_CONTENT))


def free_number(root):
    return N - 1 - root.pages_below()


# ---- paths, names and dates

def is_legal(name):
    return 1 <= len(name) <= 16 and all(0x20 <= byte <= 0x7E for byte in name)


def names_of(path):
    """The names of a path, each with the byte of the path at which it begins; 4 where it is no path."""
    if path == b"/":
        return []
    if not path.startswith(b"/"):
        raise Refused(4)
    names, begins = [], 1
    for name in path[1:].split(b"/"):
        if not is_legal(name):
            raise Refused(4)
        names.append((name, begins))
        begins += len(name) + 1
    return names


def is_good(date):
    text = date.hex()
    if len(date) != 8 or not text.isdecimal():
        return False
    year, month, day = int(text[:4]), int(text[4:6]), int(text[6:8])
    hour, minute, second = (int(text[i:i + 2]) for i in (10, 12, 14))
    return 1 <= month <= 12 and 1 <= day <= days_in(year, month) and hour <= 23 and minute <= 59 and second <= 59


def days_in(year, month):
    """The days of a month of the Gregorian calendar, in which 0000 is a leap year (document 02 §3)."""
    return calendar.monthrange(year, month)[1]


# ---- the walk

def step(directory, name, begins):
    entry = directory.look_up(name)
    if entry is None:
        raise Refused(5, begins)
    return entry


def walk_to_directory(root, names):
    place = root
    for name, begins in names:
        place = step(place, name, begins)
        if isinstance(place, File):
            raise Refused(6, begins)
    return place


def walk(root, names):
    """What the path leads to: all names but the last are directories."""
    if not names:
        return root
    return step(walk_to_directory(root, names[:-1]), *names[-1])


# ---- the calls: each takes the root and its arguments, and gives the root after it and the text of its answer

def do_format(root):
    return fresh_root(), "done"


def do_verdict(root):
    return root, f"pages {N} free {free_number(root)}"


def do_find(root, path):
    found = walk(root, names_of(path))
    kind, mark, size = found.told()
    return root, f"{kind}{mark} size {size} date {found.date.hex()}"


def do_list(root, path, i):
    directory = walk_to_directory(root, names_of(path))
    if i >= len(directory.entries):
        raise Refused(12)
    entry = directory.entries[i]
    if entry is None:
        return root, "empty"
    kind, mark, size = entry.told()
    return root, f"{kind} {quoted(entry.name.ljust(16, bytes(1)))}{mark} size {size} date {entry.date.hex()}"


def file_at(root, names):
    file = walk(root, names)
    if isinstance(file, Directory):
        raise Refused(7)
    return file


def unlocked_at(root, names):
    file = file_at(root, names)
    if file.locked:
        raise Refused(25)
    return file


def content_from(file, position):
    if position > len(file.content):
        raise Refused(12)
    return file.content


def do_read(root, path, position, room):
    copied = content_from(file_at(root, names_of(path)), position)[position:position + room]
    return root, f"{len(copied)} buffer {quoted(copied.ljust(room, b'.'))}"


def opening(root, path, date, pages):
    """The names of a new path, and its parent with an empty entry, where so many pages are free."""
    names = names_of(path)
    if not is_good(date):
        raise Refused(11)
    parent = walk_to_directory(root, names[:-1])
    if not names or parent.look_up(names[-1][0]) is not None:
        raise Refused(8)
    if None not in parent.entries:
        raise Refused(9)
    if pages > free_number(root):
        raise Refused(10)
    return names, parent


def do_make(root, path, date, made, pages):
    names, parent = opening(root, path, date, pages)
    parent.entries[parent.entries.index(None)] = made(names[-1][0])
    return root, "done"


def do_make_file(root, path, date):
    return do_make(root, path, date, lambda name: File(name, date), pages_for(0))


def do_make_directory(root, path, date):
    return do_make(root, path, date, lambda name: Directory(name, date, 8), 1)


def do_write(root, path, position, new):
    file = unlocked_at(root, names_of(path))
    old = content_from(file, position)
    longer = old[:position] + new + old[position + len(new):]
    if pages_for(len(longer)) - pages_for(len(old)) > free_number(root):
        raise Refused(10)
    file.content = longer
    return root, "done"


def names_to_remove(path):
    names = names_of(path)
    if not names:
        raise Refused(14)
    return names


def vacate(root, names, entry):
    parent = walk(root, names[:-1])
    parent.entries[parent.entries.index(entry)] = None
    return root, "done"


def do_remove_file(root, path):
    names = names_to_remove(path)
    return vacate(root, names, unlocked_at(root, names))


def do_remove_directory(root, path):
    names = names_to_remove(path)
    directory = walk_to_directory(root, names)
    if directory.held():
        raise Refused(13)
    return vacate(root, names, directory)


def do_store(root, path, date, content, number, room):
    """What the tree decides of a store (document 02 §11): whether it is there. It has no pages to tell of."""
    if room != 256:
        raise Refused(29)
    pages = pages_for(len(content))
    names, _ = opening(root, path, date, pages)
    if number >= pages + (1 if len(names) == 1 else 2):
        raise Refused(12)
    return root, "done"


def do_lock(root, path):
    file_at(root, names_of(path)).locked = True
    return root, "done"


def do_unlock(root, path):
    file_at(root, names_of(path)).locked = False
    return root, "done"


CALLS_BY_NAME = {
    "format": do_format, "verdict": do_verdict, "find": do_find, "list": do_list, "read": do_read, "make_file": do_make_file,
    "make_directory": do_make_directory, "write": do_write, "remove_file": do_remove_file, "remove_directory": do_remove_directory,
    "lock": do_lock, "unlock": do_unlock, "store": do_store,
}


# ---- the lines

def quoted(text):
    """Printable ASCII as it is; any other byte, a quote and a backslash as a backslash and two digits."""
    plain = [chr(byte) if 0x20 <= byte <= 0x7E and chr(byte) not in '"\\' else f"\\{byte:02x}" for byte in text]
    return '"' + "".join(plain) + '"'


def counted(new):
    if len(new) <= 64:
        return f"{len(new)} bytes {quoted(new)}"
    return f"{len(new)} bytes {quoted(new[:16])}..{quoted(new[-16:])}"


def asked(name, path=None, *rest):
    text = name if path is None else f"{name} {quoted(path)}"
    if name == "list":
        return f"{text} entry {rest[0]}"
    if name == "read":
        return f"{text} at {rest[0]} room {rest[1]}"
    if name == "write":
        return f"{text} at {rest[0]} {counted(rest[1])}"
    if name == "store":
        return f"{text} date {rest[0].hex()} {counted(rest[1])} number {rest[2]} room {rest[3]}"
    if name in ("make_file", "make_directory"):
        return f"{text} date {rest[0].hex()}"
    return text


def answered(root, name, *arguments):
    """The root after a call and the text of its answer. A refused call changes nothing, and a reader's buffer stays."""
    try:
        return CALLS_BY_NAME[name](root, *arguments)
    except Refused as refusal:
        buffer = f" buffer {quoted(b'.' * arguments[2])}" if name == "read" else ""
        return root, f"refused {refusal.number} at {refusal.place}{buffer}"


# ---- the list of calls

NOON = bytes.fromhex("2026072506120000")
NIGHT = bytes.fromhex("1999123105235959")
LEAP_DAY = bytes.fromhex("2000022902000000")
MONTH_13 = bytes.fromhex("2026130100000000")
FEBRUARY_31 = bytes.fromhex("2026023100000000")
DIGIT_A = bytes.fromhex("2026070a00000000")
SHORT = bytes.fromhex("20260725061200")


def digits(count):
    return (b"0123456789abc" * count)[:count]


def list_entries(path, count):
    return [("list", path, i) for i in range(count)]


FRESH_IMAGE = [
    ("format",),
    ("verdict",),
    ("find", b"/"),
    ("list", b"/", 0),
    ("list", b"/", 6),
    ("find", b"/0042"),
    ("read", b"/0042", 0, 4),
    ("find", b""),
    ("remove_file", b"/"),
    ("remove_directory", b"/"),
]

TWO_NAMES = [
    ("make_file", b"/0042", NOON),
    ("make_file", b"/42", NIGHT),
    ("find", b"/0042"),
    ("find", b"/00042"),
    ("make_directory", b"/42", NOON),
    ("make_file", b"/", NOON),
    ("read", b"/0042", 0, 4),
    ("read", b"/0042", 1, 4),
]

REFUSED_MAKES = [
    ("make_file", b"/new", MONTH_13),
    ("make_directory", b"/new", DIGIT_A),
    ("make_file", b"/new", SHORT),
    ("make_file", b"/0042", FEBRUARY_31),
    ("make_file", b"//new", MONTH_13),
    ("make_directory", b"/new/", NOON),
    ("make_file", b"/seventeen letters", NOON),
    ("make_file", b"/bell\x07", NOON),
    ("make_file", b"/sixteen letters!", LEAP_DAY),
]

SHORT_WRITES = [
    ("write", b"/0042", 0, b"hello, bench"),
    ("read", b"/0042", 7, 10),
    ("write", b"/0042", 7, b"\x00\xFF zeal"),
    ("read", b"/0042", 0, 16),
    ("read", b"/0042", 3, 0),
    ("write", b"/0042", 15, b""),
    ("write", b"/0042", 14, b""),
    ("find", b"/0042"),
    ("verdict",),
]

LONG_WRITES = [
    ("write", b"/42", 0, digits(600)),
    ("verdict",),
    ("read", b"/42", 0, 620),
    ("write", b"/42", 254, b"##"),
    ("read", b"/42", 250, 10),
    ("read", b"/42", 600, 4),
    ("read", b"/42", 601, 4),
    ("write", b"/42", 600, digits(931)),
]

DIRECTORIES = [
    ("make_directory", b"/A", NOON),
    ("make_file", b"/A/7", NIGHT),
    ("make_directory", b"/B/C", NOON),
    ("make_directory", b"/0042/C", NOON),
    ("make_file", b"/A/7/x", NOON),
    ("find", b"/A/8"),
    ("list", b"/A/7", 0),
    ("read", b"/A", 300, 4),
    ("write", b"/", 0, b"x"),
    ("remove_directory", b"/A"),
    ("remove_directory", b"/A/7"),
]

NO_PAGE_LEFT = [
    ("write", b"/A/7", 0, digits(255)),
    ("make_directory", b"/A/inner", NOON),
    ("verdict",),
    ("make_directory", b"/A/more", NOON),
    ("make_file", b"/A/empty", NOON),
    ("write", b"/A/empty", 0, b"x"),
    ("write", b"/A/7", 0, b"seven"),
    ("read", b"/A/7", 0, 8),
    *list_entries(b"/", 7),
    *list_entries(b"/A", 9),
]

REMOVALS = [
    ("remove_directory", b"/A/inner"),
    ("remove_file", b"/A"),
    ("remove_file", b"/A/7/x"),
    ("remove_directory", b"/A/7/x"),
    ("remove_file", b"/A/7"),
    ("find", b"/A/7"),
    ("make_directory", b"/A/inner", NIGHT),
    ("remove_file", b"/A/inner"),
    ("remove_directory", b"/A"),
    ("remove_directory", b"/A/inner"),
    ("remove_file", b"/A"),
    ("remove_directory", b"/A"),
    ("remove_file", b"/A/empty"),
    ("remove_directory", b"/A"),
    ("find", b"/A/7"),
    ("remove_directory", b"/42"),
    ("remove_file", b"/42"),
    ("remove_file", b"/42"),
    ("remove_directory", b"42"),
    ("verdict",),
]

FULL_ROOT = [
    ("make_file", b"/again", NOON),
    ("make_directory", b"/third", NOON),
    ("make_file", b"/fourth", NOON),
    ("make_file", b"/fifth", NOON),
    ("make_file", b"/sixth", NOON),
    ("make_directory", b"/third", NOON),
    *list_entries(b"/", 6),
    ("write", b"/again", 0, digits(511)),
    ("write", b"/again", 0, digits(510)),
    ("make_directory", b"/sixth", NOON),
    ("read", b"/again", 495, 20),
    ("verdict",),
]

LOCKS = [
    ("lock", b"/0042"),
    ("lock", b"/0042"),
    ("find", b"/0042"),
    ("list", b"/", 0),
    ("read", b"/0042", 0, 4),
    ("write", b"/0042", 0, b"x"),
    ("write", b"/0042", 0, b""),
    ("write", b"/0042", 15, b"x"),
    ("write", b"/0042", 0, digits(2000)),
    ("remove_file", b"/0042"),
    ("remove_directory", b"/0042"),
    ("make_file", b"/0042", NOON),
    ("lock", b"/"),
    ("lock", b"/third"),
    ("unlock", b"/third"),
    ("lock", b"/0042/x"),
    ("unlock", b"/x"),
    ("lock", b"0042"),
    ("unlock", b"/again"),
    ("lock", b"/again"),
    ("write", b"/again", 0, b"x"),
    ("unlock", b"/again"),
    ("write", b"/again", 0, b"unlocked"),
    ("find", b"/again"),
    ("unlock", b"/0042"),
    ("find", b"/0042"),
    ("lock", b"/fifth"),
    ("verdict",),
]

FORMATS = [
    ("format",),
    ("verdict",),
    ("find", b"/again"),
    ("format",),
    ("list", b"/", 0),
    ("make_directory", b"/D", NIGHT),
    ("make_directory", b"/D/E", NOON),
    ("make_file", b"/D/E/f", NIGHT),
    ("write", b"/D/E/f", 0, b"last"),
    ("find", b"/D/E/f/g"),
    ("list", b"/D/E", 0),
    ("read", b"/D/E/f", 0, 4),
    ("verdict",),
]

STORES = [
    ("store", b"/D/x", NOON, b"stored", 0, 256),
    ("store", b"/D/x", NOON, b"stored", 2, 256),
    ("store", b"/D/x", NOON, b"stored", 3, 256),
    ("store", b"/x", NOON, b"stored", 1, 256),
    ("store", b"/x", NOON, b"", 2, 256),
    ("store", b"/D", SHORT, b"stored", 9, 255),
    ("store", b"/D", SHORT, b"stored", 9, 256),
    ("store", b"/D", NOON, b"stored", 9, 256),
    ("store", b"/D/E/f/x", NOON, b"stored", 9, 256),
    ("find", b"/D/x"),
    ("make_file", b"/D/x", NOON),
    ("store", b"/D/x", NOON, b"stored", 0, 256),
    ("write", b"/D/x", 0, digits(1020)),
    ("store", b"/y", NOON, b"", 9, 256),
    ("verdict",),
]

CALLS = [
    *FRESH_IMAGE,
    *TWO_NAMES,
    *REFUSED_MAKES,
    *SHORT_WRITES,
    *LONG_WRITES,
    *DIRECTORIES,
    *NO_PAGE_LEFT,
    *REMOVALS,
    *FULL_ROOT,
    *LOCKS,
    *FORMATS,
    *STORES,
]


def main():
    root = fresh_root()
    for call in CALLS:
        root, answer = answered(root, *call)
        sys.stdout.write(f"{asked(*call)} => {answer}\n")


main()
