// The page itself: takes an image from the file input or a drop, asks survey.mjs about it, and shows what it tells. Names and contents of an image
// come to the document as text alone: nothing here parses markup, and the page's policy forbids it to the browser too.

import { library, LONGEST } from "./library.mjs";
import { rangesText, survey } from "./survey.mjs";
// and WORDS, the words of the numbers by their number, which tools/page.py puts in front of the parts

const byId = id => document.getElementById(id);
const counted = (count, one, many = one + "s") => `${count.toLocaleString("en")} ${count === 1 ? one : many}`;

// An element with attributes and children; a child that is a string becomes text.
function element(tag, attributes, ...children) {
    const made = document.createElement(tag);
    for (const [name, value] of Object.entries(attributes)) made.setAttribute(name, value);
    made.append(...children);
    return made;
}

const bytesOf = text => Uint8Array.from(atob(text), letter => letter.charCodeAt(0));
const calls = library(bytesOf("@WASM@"));

// ---- the verdict in words

// In version 2 a directory has several pages, and number 255 on page 0 is the root itself.
function entryText([directory, entry], isTwo) {
    if (isTwo && directory === 0 && entry === 255) return "the root";
    if (isTwo && directory !== 0) return `entry ${entry} on page ${directory}`;
    return directory === 0 ? `entry ${entry} of the root` : `entry ${entry} of the directory on page ${directory}`;
}

// Where the fault is, by the numbers of its place.
function placeText({ number, place }, isTwo) {
    if (number === 16) return entryText(place, isTwo);
    if (number === 17) return `${entryText(place, isTwo)}, after ${counted(place[2], "good page")}`;
    return number >= 18 && number <= 20 ? `page ${place[0]}` : "";
}

const sentence = text => text.charAt(0).toUpperCase() + text.slice(1) + ".";

function tell(kind, heading, facts) {
    const list = element("dl", {});
    for (const [term, text] of facts) if (text) list.append(element("dt", {}, term), element("dd", {}, text));
    byId("told").replaceChildren(element("div", { class: `told ${kind}` }, element("h2", {}, heading), list));
}

// The pages in words; of version 2 that is all, for its calls do not tell whose they are.
function pagesText({ isTwo, length, pages, free }) {
    const size = isTwo ? ` of ${counted(length / pages, "byte")}` : "";
    return `${pages.toLocaleString("en")}${size}, of which ${free.toLocaleString("en")} are free${isTwo ? "; whose they are is drawn for version 1 alone" : ""}`;
}

function tellVerdict(name, told) {
    const { refusal, rows } = told;
    const files = rows?.filter(row => !row.isDirectory) ?? [];
    const locked = files.filter(row => row.isLocked).length;
    const directories = counted((rows?.length ?? 0) - files.length, "directory", "directories");
    const holds = rows && `${counted(files.length, "file")}${locked ? ` (${locked} locked)` : ""}, ${directories}`;
    const length = ["length", counted(told.length, "byte")];
    const version = ["version", told.isTwo && "2, the format of larger cartridges"];
    if (!refusal) return tell("good", `${name}: in order`, [["holds", holds], version, ["pages", pagesText(told)], length]);
    const words = WORDS[refusal.number];
    tell("bad", `${name}: not in order`, [
        ["what is wrong", `${sentence(words.is)} (number ${refusal.number})`],
        ["where", [placeText(refusal, told.isTwo), told.paths.join(" and ")].filter(Boolean).join(": ")],
        ["what to do", sentence(words.do)],
        ["holds", holds],
        version,
        length,
    ]);
}

// ---- the picture of the pages

// The page at which a fault is marked, if any.
const faultPage = refusal => refusal && (refusal.number === 3 ? 0 : refusal.number >= 16 && refusal.number <= 20 ? refusal.place[0] : null);

const hueOf = index => Math.round(index * 137.5 + 20) % 360;

function legendItem(kind, text) {
    return element("li", {}, element("i", { class: kind }), text);
}

// Kind and words of each page: by owners where they are known, else by the marks of the bitmap.
function cellsOf(told) {
    const ownerOf = new Map((told.rows ?? []).flatMap((row, index) => row.pages.map(page => [page, { row, index }])));
    return told.marks.map((isMarked, page) => {
        if (page === 0) return { kind: "header", text: "the header, with the root" };
        const owner = ownerOf.get(page);
        if (owner) return { kind: owner.row.isDirectory ? "owned directory" : "owned", text: owner.row.path, index: owner.index };
        if (!told.owners) return isMarked ? { kind: "taken", text: "marked as taken" } : { kind: "", text: "marked as free" };
        return isMarked ? { kind: "taken", text: "marked as taken, and nobody owns it" } : { kind: "", text: "free" };
    });
}

function showPages(told) {
    byId("pages").hidden = !told.marks;
    if (!told.marks) return;
    const wrong = faultPage(told.refusal);
    const cells = cellsOf(told);
    const map = byId("map");
    map.replaceChildren(...cells.map(({ kind, text, index }, page) => {
        const isWrong = page === wrong;
        const made = element("span", { class: kind + (isWrong ? " fault" : ""), title: `page ${page}: ${text}`, "data-page": page }, `${page}`);
        if (index !== undefined) made.style.setProperty("--hue", hueOf(index));
        return made;
    }));
    const isBy = told.owners ? "by owner; the table below has the same in words, in its last column" : "by the marks of its bitmap";
    const isMarked = wrong === null || wrong === undefined ? "" : ` The first fault is marked on page ${wrong}.`;
    map.setAttribute("aria-label", `The ${told.pages} pages of the cartridge, ${isBy}.${isMarked}`);
    byId("whose").textContent = told.owners ? "" : "Nobody can say for sure who owns the pages of a damaged cartridge: shown are the marks of its own bitmap.";
    const items = [legendItem("header", "header")];
    if (told.owners) items.push(legendItem("owned", "file, a colour each"), legendItem("owned directory", "directory"));
    if (cells.some(cell => cell.kind === "taken")) items.push(legendItem("taken", told.owners ? "taken by nobody" : "marked as taken"));
    items.push(legendItem("", told.owners ? "free" : "marked as free"));
    if (isMarked) items.push(legendItem("fault", "the first fault"));
    byId("legend").replaceChildren(...items);
}

// ---- the tree

function nameCell(row, index) {
    const mark = element("i", { class: row.isDirectory ? "owned directory" : "owned", "aria-hidden": "true" });
    mark.style.setProperty("--hue", hueOf(index));
    const name = row.isDirectory ? element("span", {}, row.name + "/") : element("button", { type: "button", "data-row": index }, row.name);
    const parent = row.path.slice(0, row.path.length - row.name.length - 1) || "the root";
    // for who does not see that it is indented
    const told = `${row.isDirectory ? ", a directory" : ""}, level ${row.depth + 1}, in ${parent.slice(-60)}`;
    const cell = element("td", {}, mark, name, element("span", { class: "outside" }, told));
    cell.style.setProperty("--depth", row.depth);
    return cell;
}

function showTree(told) {
    byId("tree").hidden = !told.rows;
    if (!told.rows) return;
    byId("tree-told").textContent = told.isMended
        ? "Shown as a repair would leave them, which changes no file and no directory. The image itself is as it was."
        : told.rows.length === 0 ? "The cartridge is empty." : "";
    byId("rows").replaceChildren(...told.rows.map((row, index) => element("tr", { "data-row": index },
        nameCell(row, index),
        element("td", { class: "number" }, row.isDirectory ? "" : row.size.toLocaleString("en")),
        element("td", {}, row.date),
        element("td", {}, row.isLocked ? "locked" : ""),
        element("td", {}, rangesText(row.pages)))));
}

// Marks a row and its pages; says whose they are.
function choose(told, index) {
    for (const old of document.querySelectorAll(".chosen")) old.classList.remove("chosen");
    const row = told.rows?.[index];
    if (!row) return;
    document.querySelector(`tr[data-row="${index}"]`).classList.add("chosen");
    for (const page of row.pages) document.querySelector(`#map [data-page="${page}"]`).classList.add("chosen");
    if (row.pages.length > 0) byId("whose").textContent = `${row.path}: ${row.pages.length === 1 ? "page" : "pages"} ${rangesText(row.pages)}`;
}

// ---- the content of a file

// As text: UTF-8 where all of it is that, else ASCII; what cannot be shown as a letter is shown as a dot and counted.
function textOf(bytes) {
    let text;
    try {
        text = new TextDecoder("utf-8", { fatal: true, ignoreBOM: true }).decode(bytes);
    } catch {
        text = new TextDecoder("latin1").decode(bytes).replace(/[\u0080-\uFFFF]/g, "\0");
    }
    let dots = 0;
    const shown = text.replace(/\r\n/g, "\n").replace(/[^\P{C}\n\t]/gu, () => (dots++, "\u00B7"));
    return { shown, dots };
}

const hex = (number, digits) => number.toString(16).toUpperCase().padStart(digits, "0");

function bytesText(bytes) {
    const lines = [];
    const digits = bytes.length > 65536 ? 5 : 4;
    for (let from = 0; from < bytes.length; from += 16) {
        const part = [...bytes.subarray(from, from + 16)];
        const letters = part.map(byte => byte >= 0x20 && byte < 0x7F ? String.fromCharCode(byte) : "\u00B7").join("");
        lines.push(`${hex(from, digits)}  ${part.map(byte => hex(byte, 2)).join(" ").padEnd(47)}  ${letters}`);
    }
    return lines.join("\n");
}

async function showContent(row) {
    const bytes = (await calls).read(row.path);
    if (!bytes) return;
    const { shown, dots } = textOf(bytes);
    byId("content-heading").textContent = row.path;
    byId("content-told").textContent = [
        counted(bytes.length, "byte"),
        row.date && `made ${row.date}`,
        row.isLocked && "locked",
        dots > 0 && `as text ${counted(dots, "character")} cannot be shown and ${dots === 1 ? "is a dot" : "are dots"}`,
    ].filter(Boolean).join(", ") + ".";
    byId("content-text").textContent = shown;
    byId("content-bytes").textContent = bytesText(bytes);
    byId("content").hidden = false;
    byId("content-heading").focus();
}

// ---- taking an image

// What is shown now; whoever took an image last has the page.
let current = null;
let turn = 0;

function clear() {
    for (const id of ["pages", "tree", "content"]) byId(id).hidden = true;
    byId("told").replaceChildren();
    current = null;
}

async function show(name, length, reading) {
    const mine = ++turn;
    clear();
    try {
        const [library, bytes] = await Promise.all([calls, reading]);
        if (mine !== turn) return;
        current = survey(library, bytes, length);
        showPages(current);
        showTree(current);
        tellVerdict(name, current);
    } catch (error) {
        const todo = "Choose the file again. If it stays so, use a current browser.";
        if (mine === turn) tell("bad", `${name}: could not be read`, [["what is wrong", `${error.message}`], ["what to do", todo]]);
    }
}

function showExample() {
    const bytes = bytesOf("@EXAMPLE@");
    byId("file").value = "";
    show("cabinet.img", bytes.length, bytes);
}

// A byte more than the longest image has is enough to see that a file is too long.
function take(file) {
    // what a file's name may hold besides letters could turn the words behind it around
    if (file) show(file.name.replace(/\p{C}/gu, "\u00B7"), file.size, file.slice(0, LONGEST + 1).arrayBuffer().then(buffer => new Uint8Array(buffer)));
}

const rowAt = target => target.closest("[data-row]")?.dataset.row;
const pageAt = target => target.closest("[data-page]")?.dataset.page;
const ownerAt = page => current?.rows?.findIndex(row => row.pages.includes(Number(page)));

byId("file").addEventListener("change", event => take(event.target.files[0]));
byId("example").addEventListener("click", showExample);
document.addEventListener("dragover", event => {
    event.preventDefault();
    byId("chooser").classList.add("over");
});
document.addEventListener("dragleave", () => byId("chooser").classList.remove("over"));
document.addEventListener("drop", event => {
    event.preventDefault();
    byId("chooser").classList.remove("over");
    byId("file").value = "";
    take(event.dataTransfer.files[0]);
});

byId("map").addEventListener("mouseover", event => {
    const page = pageAt(event.target);
    if (page !== undefined) byId("whose").textContent = event.target.closest("[data-page]").title;
});
byId("map").addEventListener("click", event => {
    const index = ownerAt(pageAt(event.target) ?? -1);
    if (index >= 0) choose(current, index);
});
byId("rows").addEventListener("focusin", event => choose(current, rowAt(event.target)));
byId("rows").addEventListener("click", event => {
    const index = rowAt(event.target);
    choose(current, index);
    if (event.target.closest("button")) showContent(current.rows[index]);
});
// the arrows go from file to file
byId("rows").addEventListener("keydown", event => {
    const buttons = [...byId("rows").querySelectorAll("button")];
    const here = buttons.indexOf(document.activeElement);
    const next = { ArrowDown: here + 1, ArrowUp: here - 1, Home: 0, End: buttons.length - 1 }[event.key];
    if (next === undefined || !buttons[next]) return;
    event.preventDefault();
    buttons[next].focus();
});
byId("content").addEventListener("change", event => {
    byId("content-text").hidden = event.target.value !== "text";
    byId("content-bytes").hidden = event.target.value !== "bytes";
});
// zealfs.html#example
if (location.hash === "#example") showExample();
