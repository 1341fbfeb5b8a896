// The script of a node's page among answers that are slow, refused or don't come, with a stub in place of the browser:
//
//     node examples/page_script.js
//
// An answer that takes longer than the time between two refreshes is drawn; a key that is refused hides no other; a node
// that is silent leaves the rows that were drawn. Ends with status 1 if anything else happens.
"use strict";

const fs = require("fs");
const path = require("path");

const source = fs.readFileSync(path.join(__dirname, "../crates/rr_web/src/script.rt"), "utf8");
const script = source.slice(source.indexOf('r##"') + 4, source.lastIndexOf('"##'));
const elements = new Map();
const timers = [];
// How each key is answered: after how many milliseconds, and whether it is refused or not at all.
const ways = { "slow v": { after: 80 }, "bad v": { refused: true } };

function element() {
    return {
        value: "", textContent: "", checked: true, children: [],
        replaceChildren(...children) { this.children = children; },
        append(...children) { this.children.push(...children); },
        querySelector: () => null,
        querySelectorAll: () => [],
        setAttribute() {},
        addEventListener() {},
    };
}

function at(id) {
    if (!elements.has(id)) elements.set(id, element());
    return elements.get(id);
}

function textOf(url, refused) {
    if (refused) return "error BadKey\n";
    if (url.startsWith("fetch")) return '"k",60,5\n"k",120,U\n';
    return url.startsWith("metrics") ? "rr_series 2\nrr_connections 3\n" : "a v\nslow v\nbad v\n";
}

function answer(url) {
    const { after = 1, refused = false, silent = false } = ways[new URL(url, "http://a/").searchParams.get("key")] ?? {};
    return new Promise((resolve, reject) => setTimeout(() => {
        if (silent) reject(new TypeError("silent"));
        else resolve({ ok: !refused, status: 400, text: async () => textOf(url, refused) });
    }, after));
}

function check(what, got, want) {
    if (JSON.stringify(got) !== JSON.stringify(want)) {
        console.error(`page_script.js: ${what}: ${JSON.stringify(got)} in place of ${JSON.stringify(want)}`);
        process.exit(1);
    }
    console.log(`${what}: as expected`);
}

const wait = (milliseconds) => new Promise((resolve) => setTimeout(resolve, milliseconds));

async function main() {
    at("range").value = "3600";
    const page = { getElementById: at, createElement: element, createElementNS: element, hidden: false };
    const words = ["document", "location", "history", "fetch", "setInterval"];
    const run = new Function(...words, `${script}\nreturn { choose, chosen, refresh };`);
    const { choose, chosen, refresh } =
        run(page, { hash: "" }, { replaceState() {} }, answer, (tick) => timers.push(tick));
    const rows = () => [...chosen.values()].map((series) => series.rows.length);
    await wait(20);
    check("with nothing chosen", at("note").textContent, "Choose a series.");
    check("the counts that a node has", at("state").children.length, 2);
    for (const key of ["a v", "slow v", "bad v"]) choose(key);
    for (let turn = 0; turn < 5; turn++) {
        await wait(10);
        timers.forEach((tick) => tick());
    }
    await wait(200);
    check("a slow answer and a refused key", rows(), [2, 2, 0]);
    check("the note names the key", at("note").textContent, "bad v: error BadKey");
    ways["a v"] = { silent: true };
    refresh();
    await wait(200);
    check("a silent node leaves what was drawn", rows(), [2, 2, 0]);
    check("the note says both", at("note").textContent, "The node doesn't answer.; bad v: error BadKey");
}

main();
