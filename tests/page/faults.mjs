// Damages images at random and compares what the page would tell of each with what the tool tells (`zealfs check --json`): number and paths of a fault,
// or pages and free pages. node faults.mjs zealfs.wasm TOOL COUNT IMAGE..

import { spawnSync } from "node:child_process";
import { mkdtempSync, readFileSync, rmSync, writeFileSync } from "node:fs";
import { tmpdir } from "node:os";
import { join } from "node:path";
import { library } from "../../web/library.mjs";
import { survey } from "../../web/survey.mjs";

const [wasm, tool, count, ...names] = process.argv.slice(2);
const calls = await library(readFileSync(wasm));
const images = names.map(name => new Uint8Array(readFileSync(name)));

// mulberry32
let state = 20261116;
function below(bound) {
    state = state + 0x6D2B79F5 | 0;
    let x = Math.imul(state ^ state >>> 15, 1 | state);
    x = x + Math.imul(x ^ x >>> 7, 61 | x) ^ x;
    return ((x ^ x >>> 14) >>> 0) % bound;
}

// The same for version 2: a bit of the bitmap, the count, the page code, a link, a field of an entry, or any byte.
function damageTwo(image) {
    const page = 256 << image[6], pages = image.length / page, width = image.length > 65536 ? 2 : 1;
    const root = Math.ceil((7 + pages / 8) / 32) * 32;
    for (let changes = 1 + below(3); changes > 0; changes--) {
        // most often where something is: pages are taken from the front
        const at = below(3) ? below(pages / 4) : below(pages);
        const entry = at === 0 ? root + 32 * below((page - root) / 32) : page * at + 32 * below(page / 32);
        switch (below(7)) {
        case 0: image[7 + below(pages / 8)] ^= 1 << below(8); break;
        case 1: image[4 + below(2)] ^= 1 << below(8); break;
        case 2: image[entry + 17 + below(2)] = below(4) ? below(Math.min(pages, 256)) : below(4); break;
        case 3: image[entry + [0, 1, 16, 19, 20, 21][below(6)]] ^= 1 << below(8); break;
        case 4: image[page + width * at] = below(Math.min(pages, 256)); break;
        case 5: image.copyWithin(entry, root, root + 32); break;
        default: image[below(20) ? below(image.length) : below(8)] ^= 1 << below(8);
        }
    }
    return image;
}

// One to three changes: a bit of the bitmap, the start page, flags, name or size of an entry, a link, or any byte.
function damage(image) {
    if (image[1] === 2) return damageTwo(image);
    const pages = image.length / 256;
    for (let changes = 1 + below(3); changes > 0; changes--) {
        const page = below(pages);
        const entry = (page === 0 ? 64 : 256 * page) + 32 * below(page === 0 ? 6 : 8);
        switch (below(6)) {
        case 0: image[4 + below(pages / 8)] ^= 1 << below(8); break;
        case 1: image[entry + 17] = below(pages); break;
        case 2: image[entry + [0, 1, 16, 18, 19][below(5)]] ^= 1 << below(8); break;
        case 3: image[256 * page + (page === 0 ? 3 : 0)] = below(pages); break;
        case 4: image.copyWithin(entry, 64 + 32 * below(6), 64 + 32 * below(6) + 32); break;
        default: image[below(image.length)] ^= 1 << below(8);
        }
    }
    return image;
}

const folder = mkdtempSync(join(tmpdir(), "zealfs-page-"));
const met = new Map();
let named = 0;
try {
    const damaged = Array.from({ length: Number(count) }, (_, i) => damage(images[i % images.length].slice()));
    const files = damaged.map((image, i) => {
        const file = join(folder, `${i}.img`);
        writeFileSync(file, image);
        return file;
    });
    const ran = spawnSync(tool, ["check", "--json", ...files], { encoding: "utf8", maxBuffer: 1 << 28 });
    const lines = ran.stdout.trim().split("\n").map(line => JSON.parse(line));
    damaged.forEach((image, i) => {
        const page = survey(calls, image, image.length);
        const line = lines[i];
        // the tool shows letters beyond ASCII as letters, and the page as numbers: of names that are none only that they are told
        const plain = path => path.startsWith('"') ? '"' : path;
        const ours = page.refusal ? [page.refusal.number, ...page.paths.map(plain)] : [page.pages, page.free];
        const theirs = line.in_order ? [line.pages, line.free] : [line.number, ...[line.path, line.other].filter(path => path !== undefined).map(plain)];
        if (JSON.stringify(ours) !== JSON.stringify(theirs))
            throw new Error(`${names[i % names.length]}, damaged as number ${i}: the page tells ${ours}, the tool ${theirs}`);
        met.set(page.refusal?.number ?? 0, (met.get(page.refusal?.number ?? 0) ?? 0) + 1);
        if (page.paths.length > 0) named++;
    });
} finally {
    rmSync(folder, { recursive: true });
}
const told = [...met].sort((a, b) => a[0] - b[0]).map(([number, times]) => `${number === 0 ? "in order" : number}: ${times}`).join(", ");
console.log(`page: ${count} damaged images told as the tool tells them (${told}; ${named} with paths)`);
