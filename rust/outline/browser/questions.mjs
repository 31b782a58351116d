// What the page is asked. Each function runs in the page, by itself: it can use nothing from outside.

/** What stands on the page, counted. */
export function contents() {
  const all = (what) => [...document.querySelectorAll(what)];
  const count = all(".fields dd").map((dd) => Number(dd.textContent));
  const text = all("#obligations .note")[0]?.textContent ?? "";
  return {
    rows: all(".obligations tbody tr:not(.class)").length,
    wanted: Number(/of (\d+) (are met|have their lines)/.exec(text)?.[1]),
    results: all(".met").length,
    quote: document.querySelector("#quote")?.textContent ?? "",
    digests: all("#digest, #source-digest, #names-digest").map((e) => e.textContent.length),
    date: document.querySelector("#date")?.textContent ?? "",
    met: count[8],
    trees: all(".tree").length,
    empty: all(".tree").filter((tree) => tree.children.length === 0).length,
    threads: all(".thread").length,
    points: all(".points li").length,
    trust: all("#trust li").length,
    record: document.querySelector("#record").textContent.split(" ").length,
    digest: document.querySelector("#digest").textContent.length,
    drawings: all("svg.run").length,
    word: document.querySelector(".verdict .word").textContent,
  };
}

/** Is something wider than the window? The drawing may be moved sideways in its own frame. */
export function overflow() {
  const most = document.documentElement.clientWidth;
  const framed = (e) => e.closest(".drawing") && !e.matches(".drawing");
  const wide = [...document.querySelectorAll("body *")].filter((e) => {
    const { left, right, width } = e.getBoundingClientRect();
    return !framed(e) && width > 0 && (right > most + 1 || left < -1);
  });
  const names = wide.slice(0, 5).map((e) => `${e.tagName}.${e.className} ${e.textContent.slice(0, 40)}`);
  return document.documentElement.scrollWidth > most ? ["the page itself", ...names] : names;
}

/** What leaves the drawing, and texts that are wider than the letters it reckons with. */
export function drawing() {
  const svg = document.querySelector("svg.run");
  const { width, height } = svg.viewBox.baseVal;
  const texts = [...svg.querySelectorAll("text")];
  const leaves = (e) => {
    const box = e.getBBox();
    return box.x < 0 || box.y < 0 || box.x + box.width > width || box.y + box.height > height;
  };
  const wide = (e) => e.getComputedTextLength() > e.textContent.length * 8 + 1 && !e.matches(".run-value");
  const drawn = [...svg.querySelectorAll(":scope > :is(text, path, rect, circle)")];
  return {
    outside: drawn.filter(leaves).map((e) => e.textContent || e.getAttribute("class")),
    wide: texts.filter(wide).map((e) => e.textContent),
    steps: svg.querySelectorAll(".run-number").length,
    marks: svg.querySelectorAll(".run-mark").length,
  };
}

export function focused() {
  return document.activeElement.tagName;
}

export function focusedIsOpen() {
  return document.activeElement.parentElement.open;
}

export function focusIsSeen() {
  return getComputedStyle(document.activeElement).outlineStyle !== "none";
}

/** Links that lead nowhere, and links that leave the page. */
export function links() {
  const all = [...document.querySelectorAll("a[href]")].map((a) => a.getAttribute("href"));
  const inner = all.filter((href) => href.startsWith("#"));
  const broken = inner.filter((href) => !document.getElementById(href.slice(1)));
  return { broken, outward: all.filter((href) => !href.startsWith("#")), count: all.length };
}

export function placeOfLink(what) {
  window.scrollTo(0, 0);
  const { left, top, width, height } = document.querySelector(what).getClientRects()[0];
  return { x: left + width / 2, y: top + height / 2 };
}

/** Whether the page has gone to a section. */
export function isAt(id) {
  const { top } = document.getElementById(id).getBoundingClientRect();
  return location.hash === `#${id}` && top >= 0 && top < innerHeight / 2;
}

/** Trees that are not seen, and whether the page says that the drawing goes on. */
export function shown() {
  const isSeen = (e) => e.getClientRects().length > 0;
  const hidden = [...document.querySelectorAll(".tree")].filter((tree) => !isSeen(tree)).length;
  const says = [...document.querySelectorAll(".goes-on")].some(isSeen);
  const frame = document.querySelector(".drawing");
  return { hidden, says, goesOn: frame !== null && frame.scrollWidth > frame.clientWidth + 1 };
}

export function openAll() {
  document.querySelectorAll("details").forEach((details) => (details.open = true));
}

/** Whether the page is dark on white, whatever the reader's system is. */
export function isOnWhite() {
  const { backgroundColor, color } = getComputedStyle(document.body);
  const ink = color.match(/\d+/g).map(Number);
  return backgroundColor === "rgb(255, 255, 255)" && Math.max(...ink) < 100;
}
