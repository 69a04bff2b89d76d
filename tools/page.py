#!/usr/bin/env python3
"""Makes the page: target/page/zealfs.wasm from the library's modules (tools/module), and target/page/zealfs.html, one file with all in it.

    tools/page.py           makes both
    tools/page.py html      makes the page alone, of the zealfs.wasm that is there

The modules are compiled and linked by the kit's own clang and linker, which have WebAssembly among their targets. Twice made, the page is the same.
"""
import base64
import hashlib
import pathlib
import re
import subprocess
import sys
import tempfile

import image

ROOT = pathlib.Path(__file__).resolve().parent.parent
WEB = ROOT / "web"
OUT = ROOT / "target" / "page"

# the parts of the script, each using only what stands before it
PARTS = ["library.mjs", "blame.mjs", "survey.mjs", "page.mjs"]

# the modules of the library, one for each version of cartridges
MODULES = ["zealfs_c", "zealfs2_c"]

# The deepest image of version 1 wants 32 KiB of stack, that of version 2 more, as machine code 337 KiB; more is a trap and no silent overwriting, for the stack lies below all else.
STACK = 1 << 20


def calls():
    """The functions of the header that are proved: those that return a number of 64 bits."""
    return re.findall(r"^uint64_t (zealfs2?_\w+)\(", (ROOT / "include/zealfs.h").read_text(), re.M)


# a pair whose second part is an address, read as one value
PAIR = re.compile(rb"^( *)(%\S+) = load \{ (\w+), ptr \}, ptr (%\S+), align 8.*$", re.M)


def parted(found):
    """The two parts of such a pair, each read where the module's other lines put it: the second at byte 8."""
    indent, pair, first, place = found.groups()
    lines = [
        b"%s.first = load %s, ptr %s" % (pair, first, place),
        b"%s.place = getelementptr i8, ptr %s, i64 8" % (pair, place),
        b"%s.second = load ptr, ptr %s.place" % (pair, pair),
        b"%s.half = insertvalue { %s, ptr } poison, %s %s.first, 0" % (pair, first, first, pair),
        b"%s = insertvalue { %s, ptr } %s.half, ptr %s.second, 1" % (pair, first, pair, pair),
    ]
    return b"\n".join(indent + line for line in lines)


def widened(tools, module):
    """A module's text for addresses of 32 bits. The module was made for 64 and puts all it keeps at places that are counted for those. Two things would not
    fit: `ptrtoaddr` gives as many bits as an address has, and the module takes 64 from it, so `ptrtoint` puts zeros above them; and a pair with an address
    in its second part, read as one value, would be looked for at byte 4."""
    read = [tools / "clang", "--no-default-config", "-Wno-override-module", "-Xclang", "-disable-llvm-passes", "-S", "-emit-llvm", "-x", "ir", module, "-o", "-"]
    text = subprocess.run(read, check=True, stdout=subprocess.PIPE).stdout
    text = re.sub(rb"\bptrtoaddr (ptr [^ ]+ to i64)\b", rb"ptrtoint \1", text)
    text = PAIR.sub(parted, text)
    assert not re.search(rb"(load|store) \{ \w+, ptr \}", text), "a pair with an address is read or written as one value"
    return text


def compiled():
    guide = subprocess.run(["rt", "doc"], check=True, stdout=subprocess.PIPE, text=True).stdout.strip()
    tools = pathlib.Path(guide).parent / "toolchain" / "bin"
    with tempfile.TemporaryDirectory() as folder:
        linker = pathlib.Path(folder, "wasm-ld")
        linker.symlink_to(tools / "ld.lld")  # which tells by its name what it links
        objects = []
        for module in MODULES:
            objects.append(f"{folder}/{module}.o")
            subprocess.run(
                [tools / "clang", "--target=wasm32-unknown-unknown", "-mbulk-memory", "--no-default-config", "-Wno-override-module",
                 "-O3", "-c", "-x", "ir", "-", "-o", objects[-1]], check=True, input=widened(tools, OUT / f"{module}.bc"), stderr=subprocess.DEVNULL)
        subprocess.run(
            [linker, "--no-entry", "--strip-all", "-z", f"stack-size={STACK}", "--export=__heap_base",
             *("--export=" + call for call in calls()), *objects, "-o", OUT / "zealfs.wasm"], check=True)


def script(wasm):
    """The words and the parts as one module: what they import of each other stands in the same file."""
    words = subprocess.run([ROOT / "tools/words.py", "json"], check=True, stdout=subprocess.PIPE, text=True).stdout
    text = f"const WORDS = {words.strip()};\n" + "".join((WEB / part).read_text() for part in PARTS)
    text = re.sub(r"^import .*\n", "", text, flags=re.M)
    text = re.sub(r"^export ", "", text, flags=re.M)
    text = text.replace("@WASM@", base64.b64encode(wasm).decode())
    return text.replace("@EXAMPLE@", base64.b64encode(image.cabinet().bytes).decode())


def source(text):
    """A hash by which the page's policy names what it may run or use for its style."""
    return "'sha256-" + base64.b64encode(hashlib.sha256(text.encode()).digest()).decode() + "'"


def page():
    wasm = (OUT / "zealfs.wasm").read_bytes()
    parts = {"STYLE": (WEB / "page.css").read_text(), "SCRIPT": script(wasm), "DIGEST": hashlib.sha256(wasm).hexdigest()}
    parts["POLICY"] = "; ".join([
        "default-src 'none'",
        f"script-src {source(parts['SCRIPT'])} 'wasm-unsafe-eval'",
        f"style-src {source(parts['STYLE'])}",
        "base-uri 'none'",
        "form-action 'none'",
        "require-trusted-types-for 'script'",
        "trusted-types 'none'",
    ])
    assert "</script" not in parts["SCRIPT"] and "</style" not in parts["STYLE"]
    return re.sub(r"@(STYLE|SCRIPT|DIGEST|POLICY)@", lambda found: parts[found.group(1)], (WEB / "page.html").read_text())


def main():
    if sys.argv[1:] not in ([], ["html"]):
        sys.exit(__doc__)
    if not sys.argv[1:]:
        compiled()
    (OUT / "zealfs.html").write_text(page())
    sizes = {name: (OUT / name).stat().st_size for name in ("zealfs.wasm", "zealfs.html")}
    print("page: " + ", ".join(f"target/page/{name} of {size:,} bytes" for name, size in sizes.items()))


main()
