// The paths of what a fault names, as the tool tells them (rust/zealfs-tool/src/blame.rs). No call reads an image that is not sound, so the calls are
// asked about copies in which an entry is vacant: where such a copy can be repaired, its directories have the paths that they have in the image. What
// is decided, the judges decide; what is read of an image here are the names in the entries that they point to.

const PAGE = 256;

// How many copies are judged at most, so that an image made to have many faults costs no more than seconds; then no path is told.
const TRIALS = 20000;

// Where entry `entry` of the directory on page `directory` begins, as the second judge names owners.
export const positionOf = (directory, entry) => (directory === 0 ? 64 : PAGE * directory) + 32 * entry;

// A name of any bytes as text: what is not printable as \xNN.
export function shown(bytes) {
    const letter = byte => byte >= 0x20 && byte < 0x7F ? String.fromCharCode(byte) : "\\x" + byte.toString(16).padStart(2, "0");
    return Array.from(bytes, letter).join("");
}

// The positions of all entries that an image has room for. Those in a page that is no directory's name nothing.
function* positions(image) {
    for (let directory = 0; directory < image.length / PAGE; directory++)
        for (let entry = 0; entry < (directory === 0 ? 6 : 8); entry++) yield positionOf(directory, entry);
}

function nameAt(image, position) {
    const name = image.subarray(position + 1, position + 17);
    let end = name.length;
    while (end > 0 && name[end - 1] === 0) end--;
    return name.subarray(0, end);
}

// The path of whoever owns a page of a sound copy, / for page 0; null for nobody.
function pathOfPage({ copy, owners }, page) {
    const names = [];
    while (page !== 0) {
        const position = owners[page];
        if (position < 64) return null;
        names.unshift(shown(nameAt(copy, position)));
        page = Math.floor(position / PAGE);
    }
    return "/" + names.join("/");
}

// The path of an entry, by a sound copy of the image in which its directory is as in the image.
function pathOfEntry(image, settled, position) {
    const directory = pathOfPage(settled, Math.floor(position / PAGE));
    if (directory === null) return null;
    const name = nameAt(image, position);
    const isLegal = name.length > 0 && name.every(byte => byte >= 0x20 && byte < 0x7F && byte !== 0x2F);
    // a name that is none would not read as one in a path
    return isLegal ? (directory === "/" ? "" : directory) + "/" + shown(name) : `"${shown(name)}" in ${directory}`;
}

export function blame(calls, image, fault) {
    const [a, b] = fault.place;
    let trials = TRIALS;

    // Makes a copy sound by vacating entries and marking pages, if that can be done so.
    function settle(copy) {
        for (let vacated = 0; trials > 0;) {
            trials--;
            calls.lend(copy);
            const refusal = calls.repair();
            if (!refusal) return { copy: calls.lent(), owners: calls.owners(), vacated };
            const [page, entry] = refusal.place;
            if (refusal.number === 16 || refusal.number === 17) {
                copy[positionOf(page, entry)] &= 0x7F;
                vacated++;
            } else if (refusal.number === 20) copy[4 + (page >> 3)] |= 1 << (page & 7);
            else return null;
        }
        return null;
    }

    function vacated(position) {
        const copy = image.slice();
        copy[position] &= 0x7F;
        return copy;
    }

    const without = position => settle(vacated(position));
    const isFile = position => (image[position] & 0x81) === 0x80;

    // Whether the fault is the first one also without the entry. Without a file nothing else goes, so that a fault which goes with it is its own.
    function keeps(position) {
        calls.lend(vacated(position));
        const { refusal } = calls.verdict();
        return refusal?.number === fault.number && refusal.place.every((part, i) => part === fault.place[i]);
    }

    // Who shares the page with an entry that is missing in the settled copy, if the two can be told for certain. The page is then the other's; and it
    // is the entry's if that is a file, without which the fault is gone, if it lies in the other, or if without the other the page is the entry's.
    // A file that shares it with nobody returns to it.
    function sharersWith(position, settled) {
        const path = pathOfEntry(image, settled, position);
        if (path === null) return null;
        const isCulprit = isFile(position) && !keeps(position);
        const other = settled.owners[a];
        if (other < 64) return isCulprit && settled.vacated === 0 ? [path] : null;
        const otherPath = pathOfPage(settled, a);
        const isCertain = isCulprit || path.startsWith(otherPath + "/") || without(other)?.owners[a] === position;
        return isCertain ? [otherPath, path] : null;
    }

    // The two that share a page, or the one that returns to it: of the entries without which the image can be made sound, the one that costs the fewest
    // pages, and whoever then owns the page.
    function sharers() {
        let best = { count: -1, paths: [] };
        for (const position of positions(image)) {
            const settled = image[position] & 0x80 ? without(position) : null;
            const count = settled?.owners.filter(owner => owner !== 0).length ?? -1;
            const paths = count > best.count ? sharersWith(position, settled) : null;
            if (paths) best = { count, paths };
        }
        // what was not tried to the end is not told
        return trials > 0 ? best.paths : [];
    }

    // Whose page it is that is marked free: its owner once it is marked; or, where the rest of a file's chain is bad too, the file without which the
    // page is no longer the first fault.
    function userOf() {
        const settled = settle(image.slice());
        if (!settled) return null;
        if (settled.owners[a] >= 64) return pathOfPage(settled, a);
        for (const position of positions(image)) {
            if (!isFile(position) || keeps(position)) continue;
            const rest = without(position);
            return rest && pathOfEntry(image, rest, position);
        }
        return null;
    }

    const entryPath = () => {
        const settled = without(positionOf(a, b));
        return settled && pathOfEntry(image, settled, positionOf(a, b));
    };
    const paths = { 16: () => [entryPath()], 17: () => [entryPath()], 18: sharers, 20: () => [userOf()] }[fault.number]?.() ?? [];
    return paths.filter(path => path !== null);
}
