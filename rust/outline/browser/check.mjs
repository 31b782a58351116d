// Tries the pages of `outline report` in a real browser:
//   node rust/outline/browser/check.mjs [--outline PROGRAM] [--chromium PROGRAM] [--pictures FOLDER]
// Each page, at two widths and in both colour schemes: nothing overflows, tables and drawing are there, nothing is
// loaded, letters keep to the drawing's boxes, keyboard and links work, and it prints. The status is 0 if all is so.

import { mkdirSync, mkdtempSync, rmSync, writeFileSync } from "node:fs";
import { tmpdir } from "node:os";
import { join } from "node:path";
import { pathToFileURL } from "node:url";
import { Chromium } from "./chromium.mjs";
import { program, report } from "./pages.mjs";
import * as inPage from "./questions.mjs";

const PAGES = [
  { name: "message-passing", accepted: true },
  { name: "peterson-claim", accepted: true },
  { name: "message-passing-wrong-2", accepted: false },
  { name: "three-threads-wrong-1", accepted: false },
  { name: "peterson-claim-wrong-2", accepted: false },
  { name: "both-inside", accepted: false, folder: "rust/outline/tests/outlines" },
];
const WINDOWS = [
  { width: 1200, scheme: "light" },
  { width: 390, scheme: "dark" },
];

function options() {
  const found = { outline: program, chromium: "chromium", pictures: null };
  for (let at = 2; at < process.argv.length; at += 2) {
    const name = process.argv[at].replace(/^--/, "");
    if (!(name in found) || at + 1 >= process.argv.length) throw new Error(`what is ${process.argv[at]}?`);
    found[name] = process.argv[at + 1];
  }
  return found;
}

let failures = 0;
let checks = 0;
function expect(where, what, is) {
  checks += 1;
  if (is) return;
  failures += 1;
  console.error(`${where}: ${what}`);
}

async function contents(tab, where, accepted) {
  const found = await tab.ask(inPage.contents);
  expect(where, `obligations: ${found.rows} rows, ${found.wanted} wanted`, found.rows === found.wanted && found.rows > 0);
  expect(where, "a tree for each line that is named", found.trees > 0 && found.empty === 0);
  expect(where, "threads, points and five lines of trust", found.threads >= 2 && found.points > 0 && found.trust === 5);
  expect(where, "record of 22 bytes, digest of 32", found.record === 22 && found.digest === 64);
  expect(where, `drawings: ${found.drawings}`, found.drawings === (accepted ? 0 : 1));
  expect(where, `the verdict says ${found.word}`, found.word === (accepted ? "Accepted" : "Refused"));
  expect(where, `results: ${found.results}`, accepted ? found.results >= found.rows : found.results === 0);
  const quoted = accepted ? "as RC11 defines it" : "nothing may be quoted";
  expect(where, `the quote says ${found.quote.slice(0, 80)}`, found.quote.includes(quoted));
  expect(where, `digests of image, source and names: ${found.digests}`, found.digests.join() === "64,64,64");
  expect(where, `the date is ${found.date}`, /^\d{4}-\d\d-\d\d$/.test(found.date));
}

async function drawing(tab, where) {
  const { outside, wide, steps, marks } = await tab.ask(inPage.drawing);
  expect(where, `outside of the drawing: ${outside}`, outside.length === 0);
  expect(where, `letters wider than was reckoned: ${wide}`, wide.length === 0);
  expect(where, "steps and marks of views are drawn", steps > 0 && marks > 0);
}

async function keyboard(tab, where) {
  let presses = 0;
  let at = null;
  while (presses < 400 && at !== "SUMMARY") {
    await tab.press("Tab");
    presses += 1;
    at = await tab.ask(inPage.focused);
  }
  expect(where, "Tab comes to a summary", at === "SUMMARY");
  for (const [key, open] of [["Enter", true], ["Enter", false], [" ", true]]) {
    await tab.press(key);
    const is = await tab.ask(inPage.focusedIsOpen);
    expect(where, `${key === " " ? "Space" : key} ${open ? "opens" : "closes"} it`, is === open);
  }
  expect(where, "the focus is seen", await tab.ask(inPage.focusIsSeen));
}

async function links(tab, where) {
  const { broken, outward, count } = await tab.ask(inPage.links);
  expect(where, `links that lead nowhere: ${broken}`, broken.length === 0 && count > 5);
  expect(where, `links that leave the page: ${outward}`, outward.length === 0);
  const place = await tab.ask(inPage.placeOfLink, 'nav a[href="#obligations"]');
  await tab.click(place.x, place.y);
  await tab.ask(() => new Promise((go) => setTimeout(go, 50)));
  expect(where, "a click leads to the obligations", await tab.ask(inPage.isAt, "obligations"));
}

async function overflow(tab, where) {
  const wide = await tab.ask(inPage.overflow);
  expect(where, `too wide: ${wide}`, wide.length === 0);
}

async function tryPage(tab, url, { name, accepted }, { width, scheme }, pictures) {
  const where = `${name}, ${width} wide, ${scheme}`;
  await tab.open(url, width, scheme);
  if (pictures) writeFileSync(join(pictures, `${name}-${width}-${scheme}.png`), await tab.picture());
  await overflow(tab, where);
  await contents(tab, where, accepted);
  if (!accepted) await drawing(tab, where);
  await keyboard(tab, where);
  if (pictures) writeFileSync(join(pictures, `${name}-${width}-${scheme}-open.png`), await tab.picture());
  await links(tab, where);
  const { says, goesOn } = await tab.ask(inPage.shown);
  expect(where, `the drawing goes on: ${goesOn}, the page says so: ${says}`, says === goesOn);
  await tab.media("print", scheme);
  await overflow(tab, `${where}, printed`);
  const paper = await tab.ask(inPage.shown);
  expect(where, `on paper ${paper.hidden} trees are closed`, paper.hidden === 0 && !paper.says);
  if (pictures) writeFileSync(join(pictures, `${name}-${width}-${scheme}.pdf`), await tab.printed());
  await tab.media("screen", scheme);
  await tab.ask(inPage.openAll);
  await overflow(tab, `${where}, all open`);
  await tab.media("print", scheme);
  expect(where, "it prints, dark on white", (await tab.printed()).length > 10_000 && (await tab.ask(inPage.isOnWhite)));
  expect(where, `asked for ${tab.requests.slice(1)}`, tab.requests.length === 1);
  expect(where, `the browser complains: ${tab.complaints}`, tab.complaints.length === 0);
}

async function main() {
  const { outline, chromium, pictures } = options();
  const folder = mkdtempSync(join(tmpdir(), "outline-pages-"));
  if (pictures) mkdirSync(pictures, { recursive: true });
  const browser = new Chromium(chromium);
  try {
    for (const page of PAGES) {
      const target = join(folder, `${page.name}.html`);
      expect(page.name, "the status says the verdict", report(outline, page.name, target, page.folder) === page.accepted);
      for (const window of WINDOWS) {
        const tab = await browser.tab();
        await tryPage(tab, pathToFileURL(target).href, page, window, pictures);
        await tab.close();
      }
    }
  } finally {
    await browser.close();
    rmSync(folder, { recursive: true, force: true });
  }
  console.log(`${PAGES.length} pages, ${WINDOWS.length} windows, ${checks} checks, ${failures} failed`);
  process.exitCode = failures === 0 ? 0 : 1;
}

main().catch((error) => {
  console.error(String(error.message ?? error));
  process.exitCode = 2;
});
