// Makes the pictures of docs/: an accepted page and a refused one.
//   node rust/outline/browser/pictures.mjs [OUTLINE [CHROMIUM]]

import { mkdtempSync, rmSync, writeFileSync } from "node:fs";
import { tmpdir } from "node:os";
import { join } from "node:path";
import { pathToFileURL } from "node:url";
import { Chromium } from "./chromium.mjs";
import { program, report, root } from "./pages.mjs";

const PICTURES = [
  { name: "message-passing", file: "report-accepted.png", last: "program" },
  { name: "message-passing-wrong-2", file: "report-refused.png", last: "refusal" },
];

const [outline = program, chromium = "chromium"] = process.argv.slice(2);
const folder = mkdtempSync(join(tmpdir(), "outline-pictures-"));
const browser = new Chromium(chromium);
for (const { name, file, last } of PICTURES) {
  const target = join(folder, `${name}.html`);
  report(outline, name, target);
  const tab = await browser.tab();
  await tab.open(pathToFileURL(target).href, 900, "light");
  const height = await tab.ask((id) => document.getElementById(id).getBoundingClientRect().bottom + 20, last);
  writeFileSync(join(root, "docs", file), await tab.picture(height));
}
await browser.close();
rmSync(folder, { recursive: true, force: true });
