// The proved calls, compiled to WebAssembly, over one image that is lent to them. All that is told of an image's bytes on the page comes from here. An
// image's first two bytes say whether version 2's calls are asked about it; what names neither version is version 1's to refuse.

// The longest image of either version, in bytes.
export const LONGEST = 1048576;

// The most bytes of a path that can be lent; no path in an image has more than 17,357.
const LONGEST_PATH = 32768;

// The bytes of an entry as zealfs2_entries tells it.
const ROW = 32;

// A refusal from the code of a call, null when it was granted.
function refusalOf(code) {
    const bits = BigInt.asUintN(64, code);
    if (bits === 0n) return null;
    return { number: Number(bits & 255n), place: [8n, 24n, 40n].map(shift => Number(bits >> shift & 65535n)) };
}

// 2026-11-15 12:00:00 from the eight bytes, of two digits each; nothing for zeros. Stored dates are not judged, so any digits may come.
export function dateText(bytes) {
    if (bytes.every(byte => byte === 0)) return "";
    const [century, year, month, day, , hour, minute, second] = [...bytes].map(byte => byte.toString(16).padStart(2, "0"));
    return `${century}${year}-${month}-${day} ${hour}:${minute}:${second}`;
}

// Answers the calls over an image that `lend` copies in. Only `lend` and `repair` change what was lent, and nobody else's bytes are ever changed.
export async function library(wasm) {
    const { instance } = await WebAssembly.instantiate(wasm, {});
    const calls = instance.exports;
    const room = { image: LONGEST + 16, path: LONGEST_PATH, out: 2048, name: 16, date: 16, rows: 128 * ROW, buffer: LONGEST };
    const at = {};
    let end = Math.ceil(calls.__heap_base.value / 16) * 16;
    for (const [name, size] of Object.entries(room)) {
        at[name] = end;
        end += size;
    }
    const missing = Math.ceil((end - calls.memory.buffer.byteLength) / 65536);
    if (missing > 0) calls.memory.grow(missing);
    const memory = new Uint8Array(calls.memory.buffer);

    const numbers = count => Array.from(new BigUint64Array(memory.buffer, at.out, count), Number);
    const copy = (from, length) => memory.slice(from, from + length);
    const nameOf = bytes => new TextDecoder("latin1").decode(bytes).replace(/\0+$/, "");
    let length = 0n;
    let isTwo = false;

    function pathArguments(path) {
        const bytes = new TextEncoder().encode(path);
        memory.set(bytes, at.path);
        return [at.path, BigInt(bytes.length)];
    }

    // What stands in an entry of a directory: null for an empty one, undefined past the last.
    function list(path, entry) {
        const refusal = refusalOf(calls.zealfs_list(at.image, length, ...pathArguments(path), BigInt(entry), at.out, at.name, at.date));
        if (refusal) return undefined;
        const [isOccupied, isDirectory, size, isLocked] = numbers(4).map((number, i) => i === 2 ? number : number === 1);
        if (!isOccupied) return null;
        return { entry, name: nameOf(copy(at.name, 16)), isDirectory, size, isLocked, date: dateText(copy(at.date, 8)) };
    }

    // The occupied entries of a directory of version 1, and of version 2, where many are told at once.
    function entriesOfOne(path) {
        const found = [];
        for (let entry = 0, told = list(path, 0); told !== undefined; told = list(path, ++entry)) if (told) found.push(told);
        return found;
    }

    function entriesOfTwo(path) {
        const found = [];
        for (let first = 0, all = 1; first < all;) {
            const window = [at.rows, BigInt(room.rows), at.out];
            if (refusalOf(calls.zealfs2_entries(at.image, length, ...pathArguments(path), BigInt(first), ...window))) break;
            const [count, inAll] = numbers(2);
            for (let i = 0; i < count; i++) {
                const row = copy(at.rows + ROW * i, ROW);
                const size = row[4] + 256 * (row[5] + 256 * (row[6] + 256 * row[7]));
                const told = { isDirectory: row[1] === 1, size, isLocked: row[2] === 1, date: dateText(row.subarray(8, 16)) };
                if (row[0] === 1) found.push({ entry: first + i, name: nameOf(row.subarray(16)), ...told });
            }
            [first, all] = [first + count, inAll];
        }
        return found;
    }

    return {
        // Lends a copy of the bytes; of what is too long a byte more than the longest image has, by which the calls see it.
        lend(bytes) {
            const lent = bytes.subarray(0, LONGEST + 1);
            memory.set(lent, at.image);
            length = BigInt(lent.length);
            isTwo = lent[0] === 0x5A && lent[1] === 2;
        },
        // Whether version 2's calls are asked about it.
        isTwo: () => isTwo,
        // The bytes as they are lent now.
        lent: () => copy(at.image, Number(length)),
        // { refusal, pages, free }
        verdict() {
            const verdict = isTwo ? calls.zealfs2_verdict : calls.zealfs_verdict;
            const refusal = refusalOf(verdict(at.image, length, at.out));
            const [pages, free] = numbers(2);
            return { refusal, pages, free };
        },
        // For each page 0 for nobody, 1 for the header, or where its owner's entry begins; null if the second judge says no. Version 1 alone has one.
        owners() {
            return calls.zealfs_audit(at.image, length, at.out) === 1n ? numbers(256) : null;
        },
        // The occupied entries of a directory, in order.
        entries: path => isTwo ? entriesOfTwo(path) : entriesOfOne(path),
        // The content of a file; null if it is refused.
        read(path) {
            const read = isTwo ? calls.zealfs2_read : calls.zealfs_read;
            const refusal = refusalOf(read(at.image, length, ...pathArguments(path), 0n, at.buffer, BigInt(room.buffer), at.out));
            return refusal ? null : copy(at.buffer, numbers(1)[0]);
        },
        // Repairs what was lent, of version 1; the refusal, or null.
        repair: () => refusalOf(calls.zealfs_repair(at.image, length)),
    };
}
