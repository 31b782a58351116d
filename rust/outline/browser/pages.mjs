// Pages of the examples.

import { execFileSync } from "node:child_process";
import { dirname, join } from "node:path";
import { fileURLToPath } from "node:url";

export const root = join(dirname(fileURLToPath(import.meta.url)), "../../..");
export const program = join(root, "target/rust/release/outline");

/** Writes the page of an example, or of a test's outline; whether it is accepted. A refusal has status 1. */
export function report(outline, name, target, folder = "examples") {
  try {
    execFileSync(outline, ["report", join(root, folder, `${name}.outline`), "-o", target], { stdio: "pipe" });
    return true;
  } catch (error) {
    if (error.status !== 1) throw error;
    return false;
  }
}
