#!/usr/bin/env python3
"""Makes images of ZealFS, laid out as document 01 and 02 §1 say, and for version 2 as document 001 and 02 §12 say.

    image.py example > FILE    document 01's example of a listing: 2,048 bytes with /0042 of 256 bytes, /A, and /A/7 of 0 bytes
    image.py pulled > FILE     the example as if its cartridge had been pulled too early: page 5 is marked, and nobody owns it (number 19)
    image.py shared > FILE     the example damaged: /A begins on the first page of /0042 (number 18)
    image.py nest > FILE       65,536 bytes with 255 directories, one inside the other, each with a name of 16 bytes
    image.py wide > FILE       65,536 bytes with 30 directories along one path of names of 16 bytes, and empty files in every entry that is left
    image.py cabinet > FILE    16,384 bytes with the records of a cabinet: the example that the page shows
    image.py version2 > FILE   version 2, 2,048 bytes, pages of 256: /0042 of 300 bytes, /A, and /A/7 of 0 bytes
    image.py wide2 > FILE      version 2, 131,072 bytes, pages of 512: a root of three pages, /A with 40 files, and /A/long of 70,000 bytes

The images are written byte by byte from the layout and not by the library, so that a listing of them is an outside check.
"""
import sys

PAGE = 256
ROOM = 255  # bytes of content on a page of a file, behind its link
DATE = bytes.fromhex("2026110707120000")  # century, year, month, day, weekday, hour, minute, second, each two BCD digits


class Image:
    """An image that is filled from the front: each page taken is the lowest free one."""

    def __init__(self, pages):
        self.bytes = bytearray(PAGE * pages)
        self.bytes[0:5] = bytes([0x5A, 1, pages // 8, pages - 1, 1])
        self.next = 1
        self.pages = pages

    def take(self):
        """Takes a page: its bit is set and the count of free pages falls."""
        page = self.next
        self.next += 1
        self.bytes[4 + page // 8] |= 1 << page % 8
        self.bytes[3] -= 1
        return page

    def entry(self, directory, i, flags, name, start, size, date=DATE):
        """Writes entry i of the directory on a page: 32 bytes, behind the header's fields in the root."""
        at = (64 if directory == 0 else PAGE * directory) + 32 * i
        fields = bytes([flags]) + name.ljust(16, b"\0") + bytes([start, size % 256, size // 256]) + date
        self.bytes[at : at + 28] = fields

    def file(self, directory, i, name, content, flags=0x80, date=DATE):
        """Makes a file, which has a page also when it is empty. The first byte of each page is the link, 0 on the last."""
        pages = [self.take() for _ in range(max(1, (len(content) + ROOM - 1) // ROOM))]
        for k, page in enumerate(pages):
            part = content[ROOM * k : ROOM * (k + 1)]
            link = pages[k + 1] if k + 1 < len(pages) else 0
            self.bytes[PAGE * page : PAGE * page + 1 + len(part)] = bytes([link]) + part
        self.entry(directory, i, flags, name, pages[0], len(content), date)

    def directory(self, directory, i, name, date=DATE):
        """Makes a directory, on one page, and answers the page."""
        page = self.take()
        self.entry(directory, i, 0x81, name, page, 0x0100, date)
        return page


class Image2(Image):
    """The same in version 2: links in a table behind the header, directories of several pages."""

    def __init__(self, length, code):
        page = 256 << code
        self.page, self.pages, self.wide = page, length // page, length > 65536
        self.bytes = bytearray(length)
        self.bytes[0:7] = bytes([0x5A, 2, *(self.pages // 8).to_bytes(2, "little"), *self.pages.to_bytes(2, "little"), code])
        self.root = (7 + self.pages // 8 + 31) // 32 * 32
        self.next = 0
        for _ in range(3 if self.wide else 2):
            self.take()

    def take(self):
        page = self.next
        self.next += 1
        self.bytes[7 + page // 8] |= 1 << page % 8
        self.bytes[4:6] = (int.from_bytes(self.bytes[4:6], "little") - 1).to_bytes(2, "little")
        return page

    def link(self, page, to):
        width = 2 if self.wide else 1
        at = self.page + width * page
        self.bytes[at : at + width] = to.to_bytes(width, "little")

    def grown(self, directory):
        """A further page of a directory, behind its last."""
        page = self.take()
        self.link(directory, page)
        return page

    def entry(self, directory, i, flags, name, start, size, date=DATE):
        """Writes entry i on a page of a directory; page 0 is the root's first."""
        at = (self.root if directory == 0 else self.page * directory) + 32 * i
        self.bytes[at : at + 32] = bytes([flags]) + name.ljust(16, b"\0") + start.to_bytes(2, "little") + size.to_bytes(4, "little") + date + b"\0"

    def file(self, directory, i, name, content, flags=0x80, date=DATE):
        pages = [self.take() for _ in range(max(1, (len(content) + self.page - 1) // self.page))]
        for page, after in zip(pages, [*pages[1:], 0]):
            self.link(page, after)
        for k, page in enumerate(pages):
            part = content[self.page * k : self.page * (k + 1)]
            self.bytes[self.page * page : self.page * page + len(part)] = part
        self.entry(directory, i, flags, name, pages[0], len(content), date)

    def directory(self, directory, i, name, date=DATE):
        page = self.take()
        self.entry(directory, i, 0x81, name, page, self.page, date)
        return page


def version2():
    image = Image2(2048, 0)
    image.file(0, 0, b"0042", bytes(k % 256 for k in range(300)))
    inner = image.directory(0, 1, b"A")
    image.file(inner, 0, b"7", b"")
    return image


def wide2():
    """Directories and a file of several pages, with a hole in each of the root's."""
    image = Image2(131072, 1)
    page, a = 0, image.directory(0, 0, b"A")
    for k in range(3):
        first = 1 if page == 0 else 0
        for i in range(first, (image.page - image.root) // 32 if page == 0 else 16):
            if i != 5:
                image.file(page, i, b"%d-%d" % (k, i), b"%d" % k, 0xC0 if i == 7 else 0x80)
        if k < 2:
            page = image.grown(page)
    for k in range(40):
        if k in (16, 32):
            a = image.grown(a)
        image.file(a, k % 16, b"%04d" % k, b"")
    image.file(a, 8, b"long", bytes(k * k % 251 for k in range(70000)))
    return image


def example():
    image = Image(8)
    image.file(0, 0, b"0042", bytes(range(256)))
    inner = image.directory(0, 1, b"A")
    image.file(inner, 0, b"7", b"")
    return image


def nest(depth, files):
    """A path of directories; where `files`, every other entry of each is an empty file."""
    image = Image(256)
    page = 0
    for k in range(depth + 1):
        entries = 6 if page == 0 else 8
        last = k == depth
        below = page if last else image.directory(page, 0, b"d%015d" % k)
        if files:
            for i in range(0 if last else 1, entries):
                image.file(page, i, b"f%015d" % i, b"")
        page = below
    return image


def changed(at, byte):
    """The example with one byte changed."""
    image = example()
    image.bytes[at] = byte
    return image


def cabinet():
    """Records of a cabinet in two directories, two of them locked; 0042 and 42 are two specimens."""
    image = Image(64)
    date = lambda day: bytes.fromhex("2026" + day)
    about = b"Cabinet 7, drawers 1 to 12.\nOne directory for each family, one file for each accession.\n"
    image.file(0, 0, b"README.TXT", about, date=date("0302010915 00"))
    ammonites = image.directory(0, 1, b"AMMONOIDEA", date("0302010916 00"))
    loans = image.directory(0, 2, b"LOANS", date("0302010917 00"))
    figure = b"Figured: plate 3, figure 1.\n"
    measures = b"".join(b"%4d.%d%s" % (*divmod(614 * 985**k // 1000**k, 10), b"\n" if k % 8 == 7 else b"") for k in range(72))
    record = b"Accession %s\nDactylioceras commune (Sowerby, 1815)\nWhitby, Yorkshire; Lower Jurassic, Toarcian\nDrawer %d\n"
    holotype = record % (b"0042", 3) + b"HOLOTYPE. " + figure + b"Measured along the whorls, in mm:\n" + measures
    image.file(ammonites, 0, b"0042", holotype, 0xC0, date("0302010924 10"))
    image.file(ammonites, 1, b"42", record % (b"42", 5), date=date("0303020930 00"))
    image.file(ammonites, 2, b"0043", record % (b"0043", 3) + b"Paratype. " + figure, 0xC0, date("0303020941 30"))
    plates = image.directory(ammonites, 3, b"PLATES", date("0309010800 00"))
    image.file(plates, 0, b"3-1.PIX", bytes(x * y % 256 for y in range(64) for x in range(64)), date=date("0309011012 00"))
    image.file(plates, 1, b"3-2.PIX", bytes((x ^ y) * 4 for y in range(48) for x in range(48)), date=date("0309011015 00"))
    loan = b"Loan 2026-014\n0042, 0043 to the university, for casting.\nDue back 2026-12-01.\n"
    image.file(loans, 0, b"2026-014", loan, date=date("1015041400 00"))
    image.file(loans, 1, b"OPEN", b"", date=date("1102010830 00"))
    return image


MADE = {
    "example": example,
    "pulled": lambda: changed(4, 0x3F),
    "shared": lambda: changed(64 + 32 + 17, 1),
    "nest": lambda: nest(255, False),
    "wide": lambda: nest(30, True),
    "cabinet": cabinet,
    "version2": version2,
    "wide2": wide2,
}

if __name__ == "__main__":
    if len(sys.argv) != 2 or sys.argv[1] not in MADE:
        sys.exit(__doc__)
    sys.stdout.buffer.write(MADE[sys.argv[1]]().bytes)
