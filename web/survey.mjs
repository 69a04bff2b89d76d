// What the page tells of an image, gathered by the library's calls: the verdict, the tree, who owns each page, and where a fault is.
// No image byte is read here but where the calls tell nothing: the marks of the bitmap of an image of version 1 that is not in order.

import { blame, positionOf } from "./blame.mjs";
import { LONGEST } from "./library.mjs";

const below = (path, name) => (path === "/" ? "" : path) + "/" + name;

// The rows of the tree of a sound image, depth first, each with its path, depth and pages; with none where no owners are told.
export function treeOf(calls, owners) {
    const pagesOf = new Map();
    owners?.forEach((owner, page) => owner > 1 && pagesOf.set(owner, [...pagesOf.get(owner) ?? [], page]));
    const rows = [];
    const waiting = [{ path: "/", page: 0, depth: 0 }];
    // a stack and no recursion: a directory's rows go before what waits already
    while (waiting.length > 0) {
        const next = waiting.pop();
        if (next.row) rows.push(next.row);
        if (next.row && !next.row.isDirectory) continue;
        const found = calls.entries(next.path).map(told => {
            const pages = pagesOf.get(positionOf(next.page, told.entry)) ?? [];
            const path = below(next.path, told.name);
            return { path, page: pages[0], depth: next.depth + 1, row: { ...told, path, pages, depth: next.depth } };
        });
        waiting.push(...found.reverse());
    }
    return rows;
}

// Page ranges in words: 1-3, 7
export function rangesText(pages) {
    const ranges = [];
    for (const page of pages) {
        const last = ranges.at(-1);
        if (last && last[1] === page - 1) last[1] = page;
        else ranges.push([page, page]);
    }
    return ranges.map(([from, to]) => from === to ? `${from}` : `${from}\u2013${to}`).join(", ");
}

// Of a version 2 image: verdict and tree. Who owns each page is told of version 1 alone.
function surveyTwo(calls, length) {
    const { refusal, pages, free } = calls.verdict();
    const rows = refusal ? null : treeOf(calls, null);
    return { isTwo: true, length, refusal, pages, free, rows, owners: null, marks: null, isMended: false, paths: [] };
}

// All of it. `isMended` where tree and owners are those of a repaired copy: the verdict gave 3 or 19, and repair leaves the tree as it is.
export function survey(calls, bytes, length) {
    calls.lend(bytes);
    if (calls.isTwo()) return surveyTwo(calls, length);
    const { refusal, pages, free } = calls.verdict();
    const owners = calls.owners();
    const told = { isTwo: false, length, refusal, pages, free, rows: null, owners, marks: null, isMended: false, paths: [] };
    // that both judges say the same is proved
    if ((refusal === null) !== (owners !== null)) throw new Error("The two judges disagree, which cannot be: this machine or this page is damaged.");
    if (refusal?.number === 1 || refusal?.number === 2) return told;
    const image = bytes.subarray(0, LONGEST);
    told.pages = image.length / 256;
    told.marks = Array.from({ length: told.pages }, (_, page) => (image[4 + (page >> 3)] >> (page & 7) & 1) === 1);
    told.isMended = refusal?.number === 3 || refusal?.number === 19;
    if (told.isMended) {
        calls.repair();
        told.owners = calls.owners();
    } else if (refusal) {
        told.paths = blame(calls, image, refusal);
        calls.lend(bytes);
    }
    if (told.owners) told.rows = treeOf(calls, told.owners);
    return told;
}
