"""ZealFS over an image in memory: the proved calls of libzealfs, by ctypes alone. No class to open, no state. The calls of the module are those of
version 1; `v2` has those of version 2, for larger cartridges, and `version` tells which an image is of.

An image is a bytearray, or for the calls that only look at it any bytes. Each call judges it first and ends with an answer, whatever the bytes, or
raises Refusal; then image and buffer hold what they held before. Names, words and types are those of the Rust crate (rust/zealfs). What is promised
of the calls says docs/PROMISES.md; this module adds types and no decision of its own.

>>> image = bytearray(8192)
>>> format(image)
>>> make_directory(image, "/A", Date.new(2026, 11, 15, 12, 0, 0))
>>> verdict(image)
Space(pages=32, free=30)

The library is libzealfs.so, as `make library` builds it and `make install` installs it; the environment variable ZEALFS_LIBRARY names another.
"""
import ctypes
import datetime
import os
import pathlib
import re
from typing import Iterable, Iterator, NamedTuple, Optional, Tuple, Union

# The longest image, in bytes.
LONGEST = 65536

# A row has three bytes at least, and no file more than 65,025.
_MOST_ROWS = 21675

Path = Union[str, bytes]

# Number: name, what is wrong, what to do.
# Made from words/numbers.txt by tools/words.py; edit it there.
WORDS = {
    1: ("WrongLength",
         "the image is not as long as any cartridge: a multiple of 2,048 bytes, from 2,048 to 65,536, in version 2 to 1,048,576",
         "read the cartridge again, whole"),
    2: ("WrongHeader",
         "its first bytes are not those of ZealFS, of this version and this length",
         "read the cartridge again, whole; if it stays so it is not formatted, or another system's: do not write to it"),
    3: ("WrongCount",
         "the header's own mark (in version 2 also that of the table of links) or its count of free pages is wrong; all files and directories are in order",
         "nothing is lost, but no call reads the image until it is mended: repair it (zealfs repair), and it is as good as before; version 2 has no repair: make the cartridge anew from a backup"),
    4: ("NotAPath",
         "the path is not written as a path: /, or names of 1 to 16 characters, each after a /",
         "correct the path"),
    5: ("NoSuchName",
         "a name of the path is not there",
         "look at the listing"),
    6: ("NotADirectory",
         "a file's name stands where a directory's is needed, also when a directory is to be removed",
         "look at the listing; a file is removed as a file"),
    7: ("IsADirectory",
         "a directory cannot be read, written, locked or unlocked, nor removed as a file",
         "name a file in it; or remove it as a directory, if you mean to"),
    8: ("NameExists",
         "the name is there already",
         "choose another, or remove the old one"),
    9: ("DirectoryFull",
         "the directory has no empty entry: in version 1 the root has 6, any other 8",
         "remove something from it, or take another directory"),
    10: ("NoFreePages",
         "not enough free pages",
         "remove something, or take another cartridge"),
    11: ("BadDate",
         "the date or the time does not exist, or is not 8 bytes of two decimal digits each",
         "correct it"),
    12: ("PastTheEnd",
         "the position is past the end of the file, the entry past the directory's last, or the store past the last one",
         "begin at the end at most; of stores: all are done"),
    13: ("NotEmpty",
         "the directory to be removed holds something",
         "empty it first"),
    14: ("IsTheRoot",
         "the root cannot be removed, neither as a file nor as a directory",
         "name what is to be removed"),
    16: ("BadEntry",
         "damaged: a name is not legal or stands twice in a directory, or a directory's size is wrong",
         "keep a copy of the image; then format the cartridge and make its directories and files anew from a backup"),
    17: ("BadChain",
         "damaged: a file or directory leads out of the cartridge, into its header or into its table of links, or a file has fewer or more pages than its size wants",
         "keep a copy of the image; then format the cartridge and make its directories and files anew from a backup; what it holds cannot be trusted"),
    18: ("OwnedTwice",
         "damaged: two files or directories share a page, or one returns to a page of its own",
         "keep a copy of the image; then format the cartridge and make its directories and files anew from a backup; neither of the two can be trusted"),
    19: ("LostPage",
         "a page is marked as taken and nobody owns it, as when a cartridge is pulled too early; all files and directories are in order",
         "nothing is lost, but no call reads the image until it is mended: repair it (zealfs repair), and it is as good as before; version 2 has no repair: make the cartridge anew from a backup; a repair wins the page back"),
    20: ("MarkedFree",
         "damaged: a page of a file or directory is marked as free",
         "keep a copy of the image; then format the cartridge and make its directories and files anew from a backup; a write since then may have gone over that page"),
    21: ("BrokenRow",
         "a row of the link list is broken: its numbers are not written as they must be, or one is out of range",
         "write the list anew from the accession book; in a table that is to be written, correct that row"),
    22: ("RowNotAbove",
         "a row of the link list is not above the one before it: it is out of order, or stands twice",
         "sort the rows by the number of digits and then by value, each accession once"),
    23: ("RowWithoutFile",
         "a row of the link list names an accession that has no file in its directory",
         "make the file, or take the row out of the list"),
    24: ("ListTooShort",
         "the list lent for the rows is too short",
         "lend a longer one"),
    25: ("Locked",
         "the file is locked: it is neither written nor removed",
         "leave it as it is; if it is to be altered after all, let whoever answers for it unlock it first"),
    26: ("WrongShape",
         "the page size does not go with the cartridge's length: pages of 256 bytes go up to 65,536, of 512 up to 262,144, of 1,024 up to 1,048,576, a multiple of 8 of them; or the header gives a wrong length of its bitmap",
         "read the cartridge again, whole; if it stays so, keep a copy of the image and make the cartridge anew from a backup; in formatting, choose another page size or length"),
    27: ("BadProposal",
         "the proposed places are not one for every page, or part the pages of a file",
         "take the proposal that the library makes"),
    28: ("WrongTarget",
         "the buffer for the tidied image is not as long as the image",
         "lend one of the same length"),
    29: ("WrongPageBuffer",
         "the buffer for a page is not 256 bytes long",
         "lend one of 256 bytes"),
}
# end of numbers

# What the numbers of a place are, by the name of the refusal.
_PLACES = {
    "NoSuchName": ["byte"],
    "NotADirectory": ["byte"],
    "BadEntry": ["directory", "entry"],
    "BadChain": ["directory", "entry", "passed"],
    "OwnedTwice": ["page"],
    "LostPage": ["page"],
    "MarkedFree": ["page"],
}

# The same where the place is one number of 56 bits.
_ROW_PLACES = {"BrokenRow": "at", "RowNotAbove": "row", "RowWithoutFile": "row"}


def text(number: int) -> str:
    """What is wrong, by the number; nothing for what is no number. As zealfs_text of C."""
    return WORDS[number][1] if number in WORDS else ""


def advice(number: int) -> str:
    """What to do about it, by the number; nothing for what is no number. As zealfs_advice of C."""
    return WORDS[number][2] if number in WORDS else ""


class Refusal(Exception):
    """Why a call was refused: the paper's `number`, its `name`, and the `place` where the paper gives one, by name.

    A `directory` is the page of the directory on which the entry stands, 0 for the root's first; an `entry` counts from 0 on it, and 255 stands in
    version 2 for the root itself; a `byte` is that of the path at which the name begins; a `row` of a link list counts from 0, and a broken one is
    `at` the byte of the file where it begins, or in writing at that row.

    >>> try: verdict(bytes(100))
    ... except Refusal as refusal: print(refusal, "-", refusal.advice)
    refused 1: the image is not as long as any cartridge: a multiple of 2,048 bytes, from 2,048 to 65,536, in version 2 to 1,048,576 - read the cartridge again, whole
    """

    def __init__(self, code: int) -> None:
        self.code = code
        self.number = code & 0xFF
        # a number that this module does not know: the library is newer
        self.name = WORDS[self.number][0] if self.number in WORDS else "Unknown"
        self.place = {name: code >> 8 + 16 * i & 0xFFFF for i, name in enumerate(_PLACES.get(self.name, []))}
        if self.name in _ROW_PLACES:
            self.place = {_ROW_PLACES[self.name]: code >> 8}
        super().__init__(f"refused {self.number}: {self.text}")

    def __repr__(self) -> str:
        return f"{self.name}({', '.join(f'{name}={number}' for name, number in self.place.items())})"

    def __reduce__(self):
        return Refusal, (self.code,)

    @property
    def text(self) -> str:
        """What is wrong, in words."""
        return text(self.number)

    @property
    def advice(self) -> str:
        """What to do about it, in words."""
        return advice(self.number)

    @property
    def is_of_the_image(self) -> bool:
        """Whether the image is at fault (1 to 3, 16 to 20 and 26), and not what was asked of it."""
        return self.number in (1, 2, 3, 16, 17, 18, 19, 20, 26)


class Date(bytes):
    """A date and time as an image holds it: eight bytes of two decimal digits each, for century, year, month, day, weekday, hour, minute, second.

    Whether it exists is the library's to judge: a make with one that does not is refused with 11. Stored dates are not judged, so that these bytes
    may be anything.

    >>> date = Date.parse("2026-11-15 12:00:00")
    >>> date.hex(), str(date)
    ('2026111507120000', '2026-11-15 12:00:00')
    """

    @classmethod
    def new(cls, year: int, month: int, day: int, hour: int = 0, minute: int = 0, second: int = 0) -> "Date":
        """From numbers, with the weekday that the calendar gives (Monday is 1, Sunday 7), or 0 for a day that does not exist."""
        if not 0 <= year <= 9999 or not all(0 <= part <= 99 for part in (month, day, hour, minute, second)):
            raise ValueError("a number has too many digits")
        try:
            # the calendar repeats every 400 years, and Python's begins with the year 1
            weekday = datetime.date(year + 400 if year < 400 else year, month, day).isoweekday()
        except ValueError:
            weekday = 0
        return cls.fromhex(f"{year:04}{month:02}{day:02}{weekday:02}{hour:02}{minute:02}{second:02}")

    @classmethod
    def now(cls) -> "Date":
        """This second, by the local clock."""
        return cls.new(*datetime.datetime.now().timetuple()[:6])

    @classmethod
    def parse(cls, text: str) -> "Date":
        """Reads YYYY-MM-DD, with HH:MM or HH:MM:SS after a space or a T if wanted."""
        found = re.fullmatch(r"(\d{4})-(\d\d)-(\d\d)(?:[ T](\d\d):(\d\d)(?::(\d\d))?)?", text, re.ASCII)
        if not found:
            raise ValueError("a date is written YYYY-MM-DD, YYYY-MM-DD HH:MM or YYYY-MM-DD HH:MM:SS")
        return cls.new(*(int(part or 0) for part in found.groups()))

    def __str__(self) -> str:
        return "{}{}-{}-{} {}:{}:{}".format(*(f"{byte:02x}" for i, byte in enumerate(self) if i != 4))

    def __repr__(self) -> str:
        return f"Date.fromhex('{self.hex()}')"


class Space(NamedTuple):
    """The pages of an image: all of them, the header's among them, and those that nobody owns."""

    pages: int
    free: int


class File(NamedTuple):
    """A file: the bytes of its content, and whether it may be neither written nor removed."""

    size: int
    locked: bool
    is_directory = False


class Directory(NamedTuple):
    """A directory; its size is that of a page, as the listing has it: 256 in version 1."""

    size: int = 256
    locked: bool = False
    is_directory = True


Kind = Union[File, Directory]


class Found(NamedTuple):
    """What find tells: what it is, and when it was made; the root's date is zeros."""

    kind: Kind
    date: Date


class Entry(NamedTuple):
    """An occupied entry of a directory: its name of 1 to 16 printable characters, what it is, and when it was made."""

    name: str
    kind: Kind
    date: Date


class Owner(NamedTuple):
    """The file or directory that owns a page, by its entry: the page of the directory that holds it, 0 for the root, and its number there, from 0."""

    directory: int
    entry: int


# In audit's row: page 0.
HEADER = "header"


class Store(NamedTuple):
    """One store of a file: a page's number and all its bytes."""

    page: int
    bytes: bytes


class Row(NamedTuple):
    """A row of a link list: an accession by its count of digits, leading zeros among them (1 to 16), and their value, below ten to the count; and the
    number of its figure, below 2^32."""

    count: int
    value: int
    figure: int


def _load() -> ctypes.CDLL:
    here = pathlib.Path(__file__).resolve().parent
    named = os.environ.get("ZEALFS_LIBRARY")
    near = [here / "libzealfs.so", here.parent / "target" / "lib" / "libzealfs.so", here.parent.parent / "lib" / "libzealfs.so.0"]
    return ctypes.CDLL(named or next((str(path) for path in near if path.exists()), "libzealfs.so.0"))


_library = _load()


def _function(name: str, *arguments, prefix: str = "zealfs_"):
    """A function of zealfs.h. Its result has 64 bits: taken for an int, as ctypes does unasked, a place would be cut off without a word."""
    found = getattr(_library, prefix + name)
    found.argtypes, found.restype = arguments, ctypes.c_uint64
    return found


_bytes = (ctypes.c_void_p, ctypes.c_size_t)
_number, _out = ctypes.c_uint64, ctypes.c_void_p
_format = _function("format", *_bytes)
_verdict = _function("verdict", *_bytes, _out)
_find = _function("find", *_bytes, *_bytes, _out, _out)
_list = _function("list", *_bytes, *_bytes, _number, _out, _out, _out)
_read = _function("read", *_bytes, *_bytes, _number, *_bytes, _out)
_make_file = _function("make_file", *_bytes, *_bytes, *_bytes)
_make_directory = _function("make_directory", *_bytes, *_bytes, *_bytes)
_write = _function("write", *_bytes, *_bytes, _number, *_bytes)
_remove_file = _function("remove_file", *_bytes, *_bytes)
_remove_directory = _function("remove_directory", *_bytes, *_bytes)
_lock = _function("lock", *_bytes, *_bytes)
_unlock = _function("unlock", *_bytes, *_bytes)
_store = _function("store", *_bytes, *_bytes, *_bytes, *_bytes, _number, *_bytes, _out)
_repair = _function("repair", *_bytes)
_audit = _function("audit", *_bytes, _out)
_propose = _function("propose", *_bytes, *_bytes)
_tidy = _function("tidy", *_bytes, *_bytes, *_bytes)
_listing = _function("listing", *_bytes, _number, *_bytes)
_links_read = _function("links_read", *_bytes, *_bytes, *_bytes, _out)
_links_write = _function("links_write", *_bytes, *_bytes, *_bytes, *_bytes)
_links_find = _function("links_find", *_bytes, *_bytes, _number, _number, _out)
_links_check = _function("links_check", *_bytes, *_bytes)


def _lent(image):
    """An image to look at: as it is where it can be lent so, else a copy."""
    if not isinstance(image, (bytes, bytearray)):
        image = bytes(image)
    return _lent_to_change(image) if isinstance(image, bytearray) else (image, len(image))


def _lent_to_change(image):
    """A buffer to change, in its place. It is lent for one call alone: as long as it is lent it cannot be resized."""
    if not isinstance(image, bytearray):
        raise TypeError("an image that is to be changed must be a bytearray")
    return (ctypes.c_uint8 * len(image)).from_buffer(image), len(image)


def _path(path: Path):
    """The bytes of a path. Letters beyond ASCII come to bytes that no legal name has, so such a path is refused with 4 as any other that is none."""
    raw = path if isinstance(path, bytes) else path.encode("utf-8", "surrogatepass")
    return raw, len(raw)


def _position(number: int) -> int:
    """ctypes would cut a number without a word."""
    if not 0 <= number < 1 << 64:
        raise ValueError("a position is a number of 64 bits")
    return number


def _granted(code: int) -> None:
    if code != 0:
        raise Refusal(code)


def _kind(is_directory: int, size: int, locked: int) -> Kind:
    return Directory(size) if is_directory else File(size, locked == 1)


def _name(raw: bytes) -> str:
    return raw.rstrip(b"\0").decode("ascii")


def format(image: bytearray) -> None:
    """Makes the image an empty one of its length: writes page 0, every other byte stays. Judges the length alone."""
    _granted(_format(*_lent_to_change(image)))


def verdict(image) -> Space:
    """Judges the image: its pages, or its first fault as a refusal."""
    out = (ctypes.c_uint64 * 2)()
    _granted(_verdict(*_lent(image), out))
    return Space(*out)


def find(image, path: Path) -> Found:
    """What stands at the path."""
    out, date = (ctypes.c_uint64 * 3)(), (ctypes.c_uint8 * 8)()
    _granted(_find(*_lent(image), *_path(path), out, date))
    return Found(_kind(*out), Date(date))


def list(image, path: Path, entry: int) -> Optional[Entry]:
    """The entry of that number of a directory, counted from 0; None if it is empty. `entries` goes through them all."""
    out, name, date = (ctypes.c_uint64 * 4)(), (ctypes.c_uint8 * 16)(), (ctypes.c_uint8 * 8)()
    _granted(_list(*_lent(image), *_path(path), _position(entry), out, name, date))
    return Entry(_name(bytes(name)), _kind(*out[1:]), Date(date)) if out[0] else None


def entries(image, path: Path) -> Iterator[Entry]:
    """The occupied entries of a directory, in order.

    >>> image = bytearray(2048)
    >>> format(image)
    >>> for path in "/0042", "/42": make_file(image, path, Date.parse("2026-11-15"))
    >>> [entry.name for entry in entries(image, "/")]
    ['0042', '42']
    """
    number = 0
    while True:
        try:
            entry = list(image, path, number)
        except Refusal as refusal:
            if refusal.name == "PastTheEnd":  # past the directory's last entry is the end
                return
            raise
        if entry is not None:
            yield entry
        number += 1


def read(image, path: Path, position: int = 0, room: Optional[int] = None) -> bytes:
    """The file's bytes from a position on, as many as there are and as there is room for; without `room` all.

    >>> image = bytearray(2048)
    >>> format(image)
    >>> make_file(image, "/0042", Date.parse("2026-11-15"))
    >>> write(image, "/0042", 0, b"ammonite")
    >>> read(image, "/0042", 2)
    b'monite'
    """
    buffer = bytearray(LONGEST if room is None else min(room, LONGEST))  # no file is longer
    out = (ctypes.c_uint64 * 1)()
    _granted(_read(*_lent(image), *_path(path), _position(position), *_lent_to_change(buffer), out))
    return bytes(buffer[: out[0]])


def make_file(image: bytearray, path: Path, date: bytes) -> None:
    """Makes an empty file."""
    _granted(_make_file(*_lent_to_change(image), *_path(path), bytes(date), len(date)))


def make_directory(image: bytearray, path: Path, date: bytes) -> None:
    """Makes an empty directory."""
    _granted(_make_directory(*_lent_to_change(image), *_path(path), bytes(date), len(date)))


def write(image: bytearray, path: Path, position: int, content: bytes) -> None:
    """Replaces the file's bytes from a position on that is at most its size, and lengthens it where they reach past its end."""
    content = bytes(content)
    _granted(_write(*_lent_to_change(image), *_path(path), _position(position), content, len(content)))


def remove_file(image: bytearray, path: Path) -> None:
    """Removes a file that is not locked."""
    _granted(_remove_file(*_lent_to_change(image), *_path(path)))


def remove_directory(image: bytearray, path: Path) -> None:
    """Removes an empty directory."""
    _granted(_remove_directory(*_lent_to_change(image), *_path(path)))


def lock(image: bytearray, path: Path) -> None:
    """Locks a file: it is then neither written nor removed."""
    _granted(_lock(*_lent_to_change(image), *_path(path)))


def unlock(image: bytearray, path: Path) -> None:
    """Unlocks a file."""
    _granted(_unlock(*_lent_to_change(image), *_path(path)))


def store(image, path: Path, date: bytes, content: bytes, number: int) -> Store:
    """The store of that number, from 0, of a new file with its content, on a board that stores a whole page at a time. The image stays as it is: ask
    for every store before the first is done. A number past the last is refused with 12.

    >>> image = bytearray(2048)
    >>> format(image)
    >>> day = Date.parse("2026-11-15")
    >>> [store(image, "/0042", day, b"ammonite", number).page for number in (0, 1)]  # the content, then the header, which has the root's entries
    [1, 0]
    """
    content, page, out = bytes(content), bytearray(256), (ctypes.c_uint64 * 1)()
    _granted(_store(*_lent(image), *_path(path), bytes(date), len(date), content, len(content), _position(number), *_lent_to_change(page), out))
    return Store(out[0], bytes(page))


def repair(image: bytearray) -> None:
    """Wins back lost pages and corrects the count of free ones. Files and directories stay as they are; what is damaged is refused.

    >>> image = bytearray(2048)
    >>> format(image)
    >>> image[4] |= 0x80  # page 7 is marked, and nobody owns it
    >>> try: verdict(image)
    ... except Refusal as refusal: refusal
    LostPage(page=7)
    >>> repair(image)
    >>> verdict(image).free
    7
    """
    _granted(_repair(*_lent_to_change(image)))


def audit(image) -> Optional[tuple]:
    """The second judge: who owns each page of a sound image, None, HEADER or an Owner for each of 256; and None for any other image. It says sound
    exactly when verdict does, and shares no walk with it.

    >>> image = bytearray(2048)
    >>> format(image)
    >>> make_directory(image, "/A", Date.parse("2026-11-15"))
    >>> audit(image)[:3]
    ('header', Owner(directory=0, entry=0), None)
    """
    owners = (ctypes.c_uint64 * 256)()
    return tuple(map(_owner, owners)) if _audit(*_lent(image), owners) == 1 else None


def _owner(position: int) -> Union[None, str, Owner]:
    if position < 2:
        return HEADER if position == 1 else None
    directory, byte = divmod(position, 256)
    return Owner(directory, (byte - (0 if directory else 64)) // 32)


def propose(image) -> bytes:
    """A new place for every page, by which files come on neighbouring pages."""
    places = bytearray(len(image) // 256)
    _granted(_propose(*_lent(image), *_lent_to_change(places)))
    return bytes(places)


def tidy(image, places: bytes) -> bytearray:
    """The image with its pages in their new places: the same files and directories. What is no tidy proposal is refused with 27.

    >>> image = bytearray(2048)
    >>> format(image)
    >>> tidy(image, propose(image)) == image
    True
    """
    places, target = bytes(places), bytearray(len(image))
    _granted(_tidy(*_lent(image), places, len(places), *_lent_to_change(target)))
    return target


def listing(image) -> str:
    """The image's listing. An image that is not sound has one too, which says so.

    >>> listing(bytes(2048))
    'refused 2\\n'
    """
    told, window = bytearray(), bytearray(4096)
    while True:
        count = _listing(*_lent(image), len(told), *_lent_to_change(window))
        told += window[:count]
        if count < len(window):
            return told.decode("ascii")


def links_read(image, directory: Path, room: Optional[int] = None) -> Tuple[Row, ...]:
    """The rows of a directory's link list, its file LINKS, in order; with `room` they have to be so many at most.

    >>> image = bytearray(2048)
    >>> format(image)
    >>> links_write(image, "/", Date.parse("2026-11-15"), [(2, 42, 7), (4, 42, 12)])  # 42 and 0042
    >>> links_read(image, "/")
    (Row(count=2, value=42, figure=7), Row(count=4, value=42, figure=12))
    """
    room = 3 * (_MOST_ROWS if room is None else min(room, _MOST_ROWS))
    numbers, out = (ctypes.c_uint64 * room)(), (ctypes.c_uint64 * 1)()
    _granted(_links_read(*_lent(image), *_path(directory), numbers, room, out))
    return tuple(Row(*numbers[3 * row:3 * row + 3]) for row in range(out[0]))


def links_write(image: bytearray, directory: Path, date: bytes, rows: Iterable[Tuple[int, int, int]]) -> None:
    """Writes the link list of a directory anew; the rows rise by count and then value."""
    flat = [_position(number) for count, value, figure in rows for number in (count, value, figure)]
    numbers = (ctypes.c_uint64 * len(flat))(*flat)
    _granted(_links_write(*_lent_to_change(image), *_path(directory), bytes(date), len(date), numbers, len(flat)))


def links_find(image, directory: Path, count: int, value: int) -> Optional[int]:
    """The figure of an accession, by its count of digits and their value; None if it has no row.

    >>> image = bytearray(2048)
    >>> format(image)
    >>> links_write(image, "/", Date.parse("2026-11-15"), [(4, 42, 12)])
    >>> links_find(image, "/", 4, 42), links_find(image, "/", 2, 42)
    (12, None)
    """
    out = (ctypes.c_uint64 * 2)()
    _granted(_links_find(*_lent(image), *_path(directory), _position(count), _position(value), out))
    return out[1] if out[0] else None


def links_check(image, directory: Path) -> None:
    """Checks that every row names a file of the directory by its exact digits.

    >>> image = bytearray(2048)
    >>> format(image)
    >>> links_write(image, "/", Date.parse("2026-11-15"), [(4, 42, 12)])
    >>> try: links_check(image, "/")
    ... except Refusal as refusal: refusal
    RowWithoutFile(row=0)
    """
    _granted(_links_check(*_lent(image), *_path(directory)))


def version(image) -> Optional[int]:
    """The version that an image's first two bytes name, 1 or 2; None if they name neither. It judges nothing: either version's calls refuse the other's
    image, and what is none.

    >>> image = bytearray(65536)
    >>> v2.format(image, 256)
    >>> version(image), version(bytes(2048))
    (2, None)
    """
    return {b"\x5a\x01": 1, b"\x5a\x02": 2}.get(bytes(image[:2]))


def _function2(name: str, *arguments):
    return _function(name, *arguments, prefix="zealfs2_")


class v2:
    """Version 2 cartridges: images of up to 1,048,576 bytes, pages of several sizes, directories that grow. The calls are those of the module with
    the same names, and answer the same types; what the module has beyond them, as repair and the listing, is version 1's own.

    >>> image = bytearray(262144)
    >>> v2.format(image)
    >>> v2.make_directory(image, "/A", Date.new(2026, 11, 15, 12, 0, 0))
    >>> v2.verdict(image), v2.find(image, "/A").kind
    (Space(pages=512, free=508), Directory(size=512, locked=False))
    """

    # The longest image, in bytes.
    LONGEST = 1048576

    # The sizes of pages, each at the place that is its page code.
    PAGE_SIZES = (256, 512, 1024)

    _format = _function2("format", *_bytes, _number)
    _verdict = _function2("verdict", *_bytes, _out)
    _find = _function2("find", *_bytes, *_bytes, _out, _out)
    _list = _function2("list", *_bytes, *_bytes, _number, _out, _out, _out)
    _entries = _function2("entries", *_bytes, *_bytes, _number, *_bytes, _out)
    _read = _function2("read", *_bytes, *_bytes, _number, *_bytes, _out)
    _make_file = _function2("make_file", *_bytes, *_bytes, *_bytes)
    _make_directory = _function2("make_directory", *_bytes, *_bytes, *_bytes)
    _write = _function2("write", *_bytes, *_bytes, _number, *_bytes)
    _remove_file = _function2("remove_file", *_bytes, *_bytes)
    _remove_directory = _function2("remove_directory", *_bytes, *_bytes)
    _lock = _function2("lock", *_bytes, *_bytes)
    _unlock = _function2("unlock", *_bytes, *_bytes)

    @staticmethod
    def format(image: bytearray, page_size: Optional[int] = None) -> None:
        """Makes the image an empty one of its length with such pages, or with the smallest that the format has for the length: writes the header and
        the table of links, every other byte stays. Judges the length, and whether the page size goes with it."""
        if page_size is None:
            page_size = 256 if len(image) <= 65536 else 512 if len(image) <= 262144 else 1024
        if page_size not in v2.PAGE_SIZES:
            raise ValueError("a page has 256, 512 or 1024 bytes")
        _granted(v2._format(*_lent_to_change(image), v2.PAGE_SIZES.index(page_size)))

    @staticmethod
    def verdict(image) -> Space:
        """Judges the image: its pages, or its first fault as a refusal. A page has as many bytes as the image has for each."""
        out = (ctypes.c_uint64 * 2)()
        _granted(v2._verdict(*_lent(image), out))
        return Space(*out)

    @staticmethod
    def find(image, path: Path) -> Found:
        """What stands at the path."""
        out, date = (ctypes.c_uint64 * 3)(), (ctypes.c_uint8 * 8)()
        _granted(v2._find(*_lent(image), *_path(path), out, date))
        return Found(_kind(*out), Date(date))

    @staticmethod
    def list(image, path: Path, entry: int) -> Optional[Entry]:
        """The entry of that number of a directory, counted from 0 through all its pages; None if it is empty. `entries` goes through them all."""
        out, name, date = (ctypes.c_uint64 * 4)(), (ctypes.c_uint8 * 16)(), (ctypes.c_uint8 * 8)()
        _granted(v2._list(*_lent(image), *_path(path), _position(entry), out, name, date))
        return Entry(_name(bytes(name)), _kind(*out[1:]), Date(date)) if out[0] else None

    @staticmethod
    def entries(image, path: Path) -> Iterator[Entry]:
        """The occupied entries of a directory, in order. The image is judged once for every 128 entries.

        >>> image = bytearray(65536)
        >>> v2.format(image)
        >>> for number in range(20): v2.make_file(image, f"/{number:04}", Date.parse("2026-11-15"))  # more than one page holds
        >>> [entry.name for entry in v2.entries(image, "/")][-1]
        '0019'
        """
        window, out, first, count = bytearray(128 * 32), (ctypes.c_uint64 * 2)(), 0, 1
        while first < count:
            _granted(v2._entries(*_lent(image), *_path(path), first, *_lent_to_change(window), out))
            told, count = out
            for at in range(0, 32 * told, 32):
                row = bytes(window[at:at + 32])
                if row[0]:
                    yield Entry(_name(row[16:]), _kind(row[1], int.from_bytes(row[4:8], "little"), row[2]), Date(row[8:16]))
            first += told

    @staticmethod
    def read(image, path: Path, position: int = 0, room: Optional[int] = None) -> bytes:
        """The file's bytes from a position on, as many as there are and as there is room for; without `room` all.

        >>> image = bytearray(131072)
        >>> v2.format(image)
        >>> v2.make_file(image, "/0042", Date.parse("2026-11-15"))
        >>> v2.write(image, "/0042", 0, bytes(100000))
        >>> len(v2.read(image, "/0042"))
        100000
        """
        buffer = bytearray(v2.LONGEST if room is None else min(room, v2.LONGEST))  # no file is longer
        out = (ctypes.c_uint64 * 1)()
        _granted(v2._read(*_lent(image), *_path(path), _position(position), *_lent_to_change(buffer), out))
        return bytes(buffer[: out[0]])

    @staticmethod
    def make_file(image: bytearray, path: Path, date: bytes) -> None:
        """Makes an empty file. Its directory grows by a page where it has no empty entry."""
        _granted(v2._make_file(*_lent_to_change(image), *_path(path), bytes(date), len(date)))

    @staticmethod
    def make_directory(image: bytearray, path: Path, date: bytes) -> None:
        """Makes an empty directory. That in which it lies grows by a page where it has no empty entry."""
        _granted(v2._make_directory(*_lent_to_change(image), *_path(path), bytes(date), len(date)))

    @staticmethod
    def write(image: bytearray, path: Path, position: int, content: bytes) -> None:
        """Replaces the file's bytes from a position on that is at most its size, and lengthens it where they reach past its end."""
        content = bytes(content)
        _granted(v2._write(*_lent_to_change(image), *_path(path), _position(position), content, len(content)))

    @staticmethod
    def remove_file(image: bytearray, path: Path) -> None:
        """Removes a file that is not locked."""
        _granted(v2._remove_file(*_lent_to_change(image), *_path(path)))

    @staticmethod
    def remove_directory(image: bytearray, path: Path) -> None:
        """Removes an empty directory, with all pages that it has grown to."""
        _granted(v2._remove_directory(*_lent_to_change(image), *_path(path)))

    @staticmethod
    def lock(image: bytearray, path: Path) -> None:
        """Locks a file: it is then neither written nor removed."""
        _granted(v2._lock(*_lent_to_change(image), *_path(path)))

    @staticmethod
    def unlock(image: bytearray, path: Path) -> None:
        """Unlocks a file."""
        _granted(v2._unlock(*_lent_to_change(image), *_path(path)))
