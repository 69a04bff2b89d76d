// Reads what record.c wrote from standard input, performs the same calls by the page's compiled functions, and compares every answer, every array,
// every byte of a buffer and the image after each list: node replay.mjs zealfs.wasm

import { createHash } from "node:crypto";
import { readFileSync, readSync } from "node:fs";

const CALLS = 60;
const ASKED = 88, TOLD = 72;
const names = [
    "format", "verdict", "find", "list", "read", "make_file", "make_directory", "write", "remove_file", "remove_directory", "lock", "unlock",
    "repair", "audit", "listing", "entries",
];

const { instance } = await WebAssembly.instantiate(readFileSync(process.argv[2]), {});
const calls = instance.exports;
const heap = Math.ceil(calls.__heap_base.value / 16) * 16;
const at = { image: heap, buffer: heap + 131072, path: heap + 196608, give: heap + 196736, told: heap + 196864 };
calls.memory.grow(Math.ceil((at.told + TOLD - calls.memory.buffer.byteLength) / 65536));
const memory = Buffer.from(calls.memory.buffer);
// struct told: the code, out, name, date, how many bytes more
const out = at.told + 8, name = at.told + 40, date = at.told + 56;

const digest = createHash("sha256");
const input = Buffer.alloc(1 << 20);
let from = 0, to = 0;

// The next bytes of standard input; undefined at its end.
function take(count) {
    while (to - from < count) {
        input.copyWithin(0, from, to);
        [from, to] = [0, to - from];
        let got;
        try {
            got = readSync(0, input, to, input.length - to, null);
        } catch (error) {
            if (error.code === "EAGAIN") continue;
            throw error;
        }
        if (got === 0) return undefined;
        to += got;
    }
    const part = input.subarray(from, from + count);
    from += count;
    digest.update(part);
    return part;
}

// Version 0 is version 1; 1, 2 and 3 are version 2 with page codes 0, 1 and 2.
function perform(version, call, length, path, position, count) {
    const over = [at.image, length];
    const called = calls[(version ? "zealfs2_" : "zealfs_") + call];
    switch (call) {
    case "verdict": return called(...over, out);
    case "find": return called(...over, ...path, out, date);
    case "list": return called(...over, ...path, position, out, name, date);
    case "read": case "entries": return called(...over, ...path, position, at.buffer, BigInt(count), out);
    case "make_file": case "make_directory": return called(...over, ...path, at.give, 8n);
    case "write":
        for (let i = 0; i < count; i++) memory[at.buffer + i] = i + count;
        return called(...over, ...path, position, at.buffer, BigInt(count));
    case "audit": return called(...over, at.buffer);
    case "listing": return called(...over, position, at.buffer, BigInt(count));
    case "format": return version ? called(...over, position) : called(...over);
    case "repair": return called(...over);
    default: return called(...over, ...path);
    }
}

const numbers = new Map();
let lists = 0;

function differ(what) {
    console.error(`replay: list ${lists}, ${what}`);
    process.exit(1);
}

for (let head; (head = take(8)); lists++) {
    const length = head.readUInt32LE(), version = head.readUInt32LE(4);
    for (let i = 0; i < length; i++) memory[at.image + i] = i * 7;
    perform(version, "format", BigInt(length), [], BigInt(version - 1), 0);
    for (let i = 0; i < CALLS; i++) {
        const asked = Buffer.from(take(ASKED));
        const told = Buffer.from(take(TOLD));
        const call = names[asked[0]], count = asked.readUInt32LE(4), position = asked.readBigUInt64LE(8);
        memory.fill(0, at.told, at.told + TOLD);
        asked.copy(memory, at.give, 16, 24);
        asked.copy(memory, at.path, 24, 88);
        const more = told.readUInt32LE(64);
        memory.fill(0xEE, at.buffer, at.buffer + more);
        if (call === undefined) memory[at.image + Number(position)] ^= asked[2];
        else memory.writeBigUInt64LE(BigInt.asUintN(64, perform(version, call, BigInt(length), [at.path, BigInt(asked[1])], position, count)), at.told);
        memory.writeUInt32LE(more, at.told + 64);
        if (told.compare(memory, at.told, at.told + TOLD)) differ(`call ${i}, ${call}: the answer differs`);
        if (take(more).compare(memory, at.buffer, at.buffer + more)) differ(`call ${i}, ${call}: the buffer differs`);
        const number = call === "audit" || call === "listing" || call === undefined ? -1 : told[0];
        numbers.set(number, (numbers.get(number) ?? 0) + 1);
    }
    if (take(length).compare(memory, at.image, at.image + length)) differ("the image differs");
}

const granted = numbers.get(0) ?? 0;
const told = [...numbers.keys()].filter(number => number > 0).sort((a, b) => a - b);
if (lists === 0 || granted === 0) differ("nothing was compared");
const sum = digest.digest("hex").slice(0, 16);
console.log(`page: ${lists} lists of ${CALLS} calls answered by node ${process.version} as natively, ${granted} granted, refused with ${told.join(" ")}`);
console.log(`page: digest of all that was asked and answered ${sum}`);
