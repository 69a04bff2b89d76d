#!/usr/bin/env python3
"""Drives the page in headless Chromium through its own file input, and compares what it shows with what must be shown.

    tests/page/browse.py                  the cases
    tests/page/browse.py picture FILE     README's picture of the page
"""
import pathlib
import sys
import tempfile

from browser import Browser

ROOT = pathlib.Path(__file__).resolve().parent.parent.parent
PAGE = ROOT / "target" / "page" / "zealfs.html"
sys.path.insert(0, str(ROOT / "tools"))
import image as made  # noqa: E402

SHOWN = """({
    told: document.getElementById('told').innerText,
    kind: document.querySelector('#told .told').classList[1],
    rows: [...document.querySelectorAll('#rows tr')].map(row => [...row.children].map(cell => cell.querySelector('button, span')?.textContent ?? cell.textContent)),
    cells: document.querySelectorAll('#map span').length,
    faults: [...document.querySelectorAll('#map .fault')].map(cell => cell.textContent),
    titles: [...document.querySelectorAll('#map span')].map(cell => cell.title),
    hidden: ['pages', 'tree', 'content'].map(id => document.getElementById(id).hidden),
})"""


def changed(bytes_, *changes):
    """A copy with bytes changed: (position, byte)."""
    copy = bytearray(bytes_)
    for position, byte in changes:
        copy[position] = byte
    return bytes(copy)


def marked():
    """Names that would be markup, a path that would be script, in an entry each."""
    image = made.Image(8)
    for i, name in enumerate([b"<b>bold<b>", b"&lt;i&gt;\"'", b"<img src=x>", b"<!--", b"${1}`]]>"]):
        image.file(0, i, name, b"<script>document.title = 'taken'</script>")
    return image


class Trial:
    def __init__(self, browser, folder):
        self.browser, self.folder, self.count = browser, pathlib.Path(folder), 0

    def show(self, name, bytes_):
        file = self.folder / (name.replace(" ", "-") + ".img")
        file.write_bytes(bytes_)
        self.browser.choose(file)
        self.count += 1
        return self.browser.value(SHOWN)

    def expect(self, name, bytes_, kind, words, rows=None, cells=0, faults=()):
        """What is told has all these words; tree, cells and marked pages are as given."""
        shown = self.show(name, bytes_)
        missing = [word for word in words if word not in shown["told"]]
        assert not missing, f"{name}: {missing} is not told in {shown['told']!r}"
        assert shown["kind"] == kind, f"{name}: {shown['kind']}"
        names = [row[0] for row in shown["rows"]] if not shown["hidden"][1] else None
        assert names == rows, f"{name}: {names}"
        assert (0 if shown["hidden"][0] else shown["cells"]) == cells, f"{name}: {shown['cells']} cells"
        assert tuple(shown["faults"] if cells else ()) == tuple(faults), f"{name}: marked {shown['faults']}"
        print(f"page: {ascii(name)[1:-1]}: {shown['told'].splitlines()[0]}")
        return shown


def images(trial):
    example = bytes(made.example().bytes)
    names = ["0042", "A/", "7"]
    shown = trial.expect("sound", example, "good", ["in order", "2 files, 1 directory", "8, of which 3 are free"], names, 8)
    assert shown["rows"][0] == ["0042", "256", "2026-11-07 12:00:00", "", "1\u20132"], shown["rows"]
    assert shown["titles"][4:6] == ["page 4: /A/7", "page 5: free"], shown["titles"]
    shown = trial.expect("locked", changed(example, (64, 0xC0)), "good", ["(1 locked)"], names, 8)
    assert shown["rows"][0][3] == "locked"
    fresh = bytes([0x5A, 1, 1, 7, 1]) + bytes(2043)
    trial.expect("fresh", fresh, "good", ["0 files, 0 directories"], [], 8)

    wrong = ["not in order"]
    trial.expect("wrong count", changed(example, (3, 4)), "bad", wrong + ["number 3", "repair"], names, 8, ["0"])
    trial.expect("slash in a name", changed(example, (65, 0x2F)), "bad", wrong + ["number 16", "entry 0 of the root: \"/042\" in /"], None, 8, ["0"])
    trial.expect("no start page", changed(example, (81, 0)), "bad", wrong + ["number 17", "entry 0 of the root, after 0 good pages: /0042"], None, 8, ["0"])
    trial.expect("directory outside", changed(example, (113, 99)), "bad", wrong + ["number 17", "entry 1 of the root, after 0 good pages: /A"], None, 8, ["0"])
    trial.expect("torn chain", changed(example, (256, 99)), "bad", wrong + ["number 17", "entry 0 of the root, after 1 good page: /0042"], None, 8, ["0"])
    below = "entry 0 of the directory on page 3, after 0 good pages: /A/7"
    trial.expect("bad chain below", changed(example, (768 + 17, 99)), "bad", wrong + ["number 17", below], None, 8, ["3"])
    trial.expect("shared page", changed(example, (113, 1)), "bad", wrong + ["number 18", "page 1: /0042 and /A", "neither of the two"], None, 8, ["1"])
    shown = trial.expect("lost page", changed(example, (4, 0x3F)), "bad", wrong + ["number 19", "page 5"], names, 8, ["5"])
    assert shown["titles"][5] == "page 5: marked as taken, and nobody owns it"
    trial.expect("marked free", changed(example, (4, 0x0F)), "bad", wrong + ["number 20", "page 4: /A/7"], None, 8, ["4"])
    trial.expect("nothing", b"", "bad", wrong + ["number 1", "0 bytes"])
    trial.expect("65537 bytes", bytes(65537), "bad", wrong + ["number 1", "65,537 bytes"])
    trial.expect("zeros", bytes(2048), "bad", wrong + ["number 2", "do not write to it"])
    two, wide = bytes(made.version2().bytes), bytes(made.wide2().bytes)
    drawn = "whose they are is drawn for version 1 alone"
    shown = trial.expect("version 2", two, "good", ["in order", "2, the format of larger", "8 of 256 bytes, of which 2 are free", drawn], names)
    assert shown["rows"][0] == ["0042", "300", "2026-11-07 12:00:00", "", ""], shown["rows"]
    shown = trial.show("wide", wide)
    assert len(shown["rows"]) == 84 and "256 of 512 bytes, of which 29 are free" in shown["told"] and "83 files (3 locked)" in shown["told"], shown["told"]
    trial.expect("version 2 short", two[:3], "bad", wrong + ["number 1"])
    trial.expect("version 2 shape", changed(two, (6, 1)), "bad", wrong + ["number 26"])
    trial.expect("version 2 name", changed(two, (33, 0x2F)), "bad", wrong + ["number 16", "entry 0 of the root"])
    trial.expect("version 2 root", changed(two, (256, 1)), "bad", wrong + ["number 17", "the root, after 0 good pages"])
    trial.expect("version 2 below", changed(two, (1024 + 17, 99)), "bad", wrong + ["number 17", "entry 0 on page 4, after 0 good pages"])
    trial.expect("version 2 lost", changed(two, (7, 0x7F)), "bad", wrong + ["number 19", "page 6"])

    nest = trial.show("nest", bytes(made.nest(255, False).bytes))
    assert nest["kind"] == "good" and len(nest["rows"]) == 255 and nest["cells"] == 256, nest["told"]
    print("page: nest: 255 directories, one inside the other")


def markup(browser, trial):
    shown = trial.expect("markup", bytes(marked().bytes), "good", ["5 files"], ["<b>bold<b>", "&lt;i&gt;\"'", "<img src=x>", "<!--", "${1}`]]>"], 8)
    assert len(shown["rows"]) == 5
    browser.value("document.querySelector('tr[data-row=\"2\"] button').click()")
    browser.wait("!document.getElementById('content').hidden")
    told = browser.value("""[
        document.getElementById('content-text').textContent, document.getElementById('content-heading').textContent, document.title,
        document.querySelectorAll('main img, main b, main script').length,
    ]""")
    assert told == ["<script>document.title = 'taken'</script>", "/<img src=x>", "Cartridge reader", 0], told
    # a name of the file itself
    trial.expect("<b>file", bytes(made.example().bytes), "good", ["<b>file.img: in order"], ["0042", "A/", "7"], 8)
    trial.expect("turned \u202E round", bytes(made.example().bytes), "good", ["turned-\u00B7-round.img: in order"], ["0042", "A/", "7"], 8)
    refused = browser.value("(() => { try { document.body.innerHTML = '<i>x</i>'; return false } catch { return true } })()")
    assert refused, "the policy lets a script write markup"
    forbidden = browser.value("""new Promise(done => {
        document.addEventListener('securitypolicyviolation', event => done(event.effectiveDirective), { once: true });
        fetch('https://example.org').then(() => done('sent'), () => {});
        setTimeout(() => done('nothing told'), 20000);
    })""")
    assert forbidden == "connect-src", f"the policy lets the page reach the network: {forbidden}"
    print("page: markup is text; the policy forbids markup by script, and the network")


def dropped(browser):
    """An image that is dropped and not chosen."""
    browser.value("""(() => {
        const data = new DataTransfer();
        data.items.add(new File([new Uint8Array([0x5A, 1, 1, 7, 1, ...Array(2043).fill(0)])], 'dropped.img'));
        document.body.dispatchEvent(new DragEvent('drop', { dataTransfer: data, bubbles: true, cancelable: true }));
    })()""")
    browser.wait("document.querySelector('#told h2')?.textContent === 'dropped.img: in order'")
    print("page: an image can be dropped")


def keyboard(browser, trial):
    """By keys alone, from the top: to a file, its content, its bytes."""
    shown = trial.show("keys", bytes(made.cabinet().bytes))
    size = int(next(row[1] for row in shown["rows"] if row[0] == "0042"))
    focus = "document.activeElement.id || document.activeElement.textContent || document.activeElement.value"
    browser.value("document.activeElement.blur()")
    met = []
    for _ in range(4):
        browser.press("Tab")
        met.append(browser.value(focus))
    assert met[:3] == ["file", "example", "README.TXT"], met
    browser.value("document.querySelector('tr[data-row=\"0\"] button').focus()")
    browser.press("ArrowDown")
    assert browser.value(focus) == "0042"
    assert browser.value("document.getElementById('whose').textContent") == "/AMMONOIDEA/0042: pages 4\u20136"
    browser.press("Enter", text="\r")
    browser.wait("!document.getElementById('content').hidden")
    assert browser.value(focus) == "content-heading"
    assert browser.value("document.getElementById('content-text').textContent").startswith("Accession 0042\nDactylioceras")
    browser.press("Tab")
    browser.press("ArrowRight")
    browser.wait("!document.getElementById('content-bytes').hidden")
    lines = browser.value("document.getElementById('content-bytes').textContent").split("\n")
    assert lines[0] == "0000  41 63 63 65 73 73 69 6F 6E 20 30 30 34 32 0A 44  Accession 0042\u00B7D" and len(lines) == -(-size // 16), lines[:2]
    print("page: from the top to a file's bytes by keys alone")


def spoken(browser):
    """What a screen reader is told: every control has a name, and the verdict is announced."""
    nodes = browser.ask("Accessibility.getFullAXTree")["nodes"]
    told = [(node["role"]["value"], node.get("name", {}).get("value", "")) for node in nodes if not node.get("ignored") and "role" in node]
    nameless = [role for role, name in told if role in ("button", "textbox", "radio", "img", "image", "heading", "region") and not name.strip()]
    assert not nameless, f"without a name: {nameless}"
    roles = {role for role, _ in told}
    assert {"status", "heading", "button", "radio", "row", "columnheader"} <= roles, roles
    assert any(role == "button" and "choose its file" in name for role, name in told), [name for role, name in told if role == "button"]
    pictures = [name for role, name in told if role in ("img", "image")]
    assert pictures == ["The 64 pages of the cartridge, by owner; the table below has the same in words, in its last column."], pictures
    print("page: every control has a name, the verdict is a status, the picture has words")


def picture(file):
    """The example with a file opened, without the foot of the page."""
    with Browser(PAGE, 920) as browser:
        browser.value("document.getElementById('example').click()")
        browser.wait("document.querySelector('#told h2')")
        browser.value("document.querySelector('tr[data-row=\"2\"] button').click()")
        browser.wait("!document.getElementById('content').hidden")
        browser.picture(file, browser.value("document.querySelector('footer').getBoundingClientRect().top + scrollY - 20"))


def main():
    if sys.argv[1:2] == ["picture"]:
        return picture(sys.argv[2])
    with tempfile.TemporaryDirectory() as folder, Browser(PAGE) as browser:
        trial = Trial(browser, folder)
        images(trial)
        markup(browser, trial)
        browser.value("location.reload()")
        browser.wait("document.readyState === 'complete' && document.getElementById('told').children.length === 0")
        browser.errors = [error for error in browser.errors if "example.org" not in error and "TrustedHTML" not in error]
        dropped(browser)
        keyboard(browser, trial)
        spoken(browser)
        outside = [url for url in browser.requests if not url.startswith("file:") and "example.org" not in url]
        assert not outside and not browser.errors, (outside, browser.errors)
        print(f"page: {trial.count} images in {browser.ask('Browser.getVersion')['product']}, no error, no request")


main()
