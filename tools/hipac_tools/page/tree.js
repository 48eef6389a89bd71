/* The tree of all units. Only the lines in view have elements; what is open is a set of places. */

const ROW = 28;
const ROUND = 12;
const INDENT = 18;
const TWIST = "M3 1 L8 5 L3 9 Z";

const tree = { open: new Set(), lines: [], placeToLine: new Map(), active: NOWHERE, least: NO_ABORT };
const treeBox = byId("tree");
const rowsBox = byId("rows");

/* All lines that are to be seen were the tree not cut off by its box: [place, level, position, number of siblings]. */
function layOut() {
  tree.lines = [];
  const units = data.units.filter((unit, number) => isShown(number));
  const waiting = [];
  const put = (places, level) => {
    for (let at = places.length - 1; at >= 0; at -= 1) waiting.push([places[at], level, at + 1, places.length]);
  };
  put(units.map((unit) => unit[2][0]), 1);
  while (waiting.length > 0) {
    const line = waiting.pop();
    tree.lines.push(line);
    if (tree.open.has(line[0])) put(insideOf(line[0]), line[1] + 1);
  }
  tree.placeToLine = new Map(tree.lines.map((line, at) => [line[0], at]));
  while (tree.active !== NOWHERE && !tree.placeToLine.has(tree.active)) tree.active = parents[tree.active];
  rowsBox.style.height = tree.lines.length * ROW + "px";
  drawRows();
}

/* Whether a unit has what is asked for: an abort, or a fault that lasts. */
function isShown(unit) {
  return tree.least === ANY_FAULT ? faultsOfUnit(unit) > 0 : worstOf[unit] >= tree.least;
}

/* Elements of lines that look as before stay where they are: a press of the mouse and its release must meet one
   element. */
let drawn = new Map();

function drawRows() {
  const first = Math.max(0, Math.floor(treeBox.scrollTop / ROW) - ROUND);
  const last = Math.min(tree.lines.length, Math.ceil((treeBox.scrollTop + treeBox.clientHeight) / ROW) + ROUND);
  const wanted = new Map();
  for (let at = first; at < last; at += 1) wanted.set(lookOf(at), at);
  for (const [look, row] of drawn) if (!wanted.has(look)) row.remove();
  const rows = new Map();
  let former = null;
  for (const [look, at] of wanted) {
    const row = drawn.get(look) ?? rowElement(at);
    if (row.parentNode !== rowsBox) rowsBox.insertBefore(row, former ? former.nextSibling : rowsBox.firstChild);
    rows.set(look, row);
    former = row;
  }
  drawn = rows;
  if (tree.active !== NOWHERE) treeBox.setAttribute("aria-activedescendant", "row-" + tree.active);
  else treeBox.removeAttribute("aria-activedescendant");
}

/* All on which a line's element depends. */
function lookOf(at) {
  const [place, ...where] = tree.lines[at];
  return [place, at, ...where, tree.open.has(place), place === tree.active].join(" ");
}

function rowElement(at) {
  const [place, level, position, siblings] = tree.lines[at];
  const row = element("div", rowStyle(place, level), undefined, { id: "row-" + place });
  row.style.top = at * ROW + "px";
  row.style.paddingLeft = 6 + (level - 1) * INDENT + "px";
  row.dataset.place = place;
  row.setAttribute("role", "treeitem");
  row.setAttribute("aria-level", level);
  row.setAttribute("aria-posinset", position);
  row.setAttribute("aria-setsize", siblings);
  row.setAttribute("aria-selected", place === tree.active);
  row.append(twist(place));
  if (insideOf(place).length > 0) row.setAttribute("aria-expanded", tree.open.has(place));
  for (const [style, text] of said(place)) if (text) row.append(piece(style, text));
  if (undoneBy[place] !== NOWHERE) row.append(element("span", "say chip warn", "undone"));
  const faults = countFacts(place, "Fault");
  if (faults > 0) row.append(element("span", "say chip warn", faults === 1 ? "fault" : "faults"));
  row.append(element("span", "say reason", reasonOf(place)));
  return row;
}

/* Why a line is there or how it ended, in short; of a closed unit that committed, what it holds. */
const LEFT_OUT = [/ \(at [^)]*\)/g, /, in the unit's own body/g, /; `(ec|ca)` is [^.]*/g, /`/g];

function reasonOf(place) {
  const reason = fact(place, "Fault") || fact(place, "Aborted") || fact(place, "Detached") || fact(place, "Trigger");
  const isSilent = !reason && insideOf(place).length === 0;
  if (isSilent && fact(place, "Signals")) return shortened(fact(place, "Signals"));
  if (!reason && kindOf(place) === TRANSACTION && !tree.open.has(place)) return contents(place);
  return shortened(reason);
}

const shortened = (sentence) => LEFT_OUT.reduce((text, left) => text.replace(left, ""), sentence);

function rowStyle(place, level) {
  const styles = ["row"];
  if (level === 1) styles.push("top");
  if (isAborted(place)) styles.push("aborted");
  if (undoneBy[place] !== NOWHERE) styles.push("undone");
  if (place === tree.active) styles.push("selected");
  return styles.join(" ");
}

function twist(place) {
  const made = element("span", "twist");
  if (insideOf(place).length === 0) return made;
  const picture = document.createElementNS("http://www.w3.org/2000/svg", "svg");
  picture.setAttribute("viewBox", "0 0 10 10");
  const path = document.createElementNS("http://www.w3.org/2000/svg", "path");
  path.setAttribute("d", TWIST);
  path.setAttribute("fill", "currentColor");
  picture.append(path);
  made.append(picture);
  return made;
}

/* One piece of a line. A rule's or an object's name can be clicked; the keyboard reaches both through the details. */
function piece(style, text) {
  const chip = style === "end" || style === "condition" ? chipOf(style, text) : style;
  const made = element("span", "say " + chip, text);
  if (style === "name rule") made.dataset.rule = text;
  if (style === "name object") made.dataset.object = text;
  if (style.startsWith("name")) made.classList.add("link");
  return made;
}

function toggle(place) {
  if (insideOf(place).length === 0) return;
  if (!tree.open.delete(place)) tree.open.add(place);
  layOut();
}

function openWithin(place) {
  const waiting = [place];
  while (waiting.length > 0) {
    const here = waiting.pop();
    if (insideOf(here).length > 0) tree.open.add(here);
    waiting.push(...insideOf(here));
  }
  layOut();
}

/* Makes a place the active line, with all round it open, and in view. */
function reveal(place) {
  let closed = false;
  for (let round = parents[place]; round !== NOWHERE; round = parents[round]) {
    if (!tree.open.has(round)) closed = true;
    tree.open.add(round);
  }
  tree.active = place;
  if (!isShown(unitOf[place])) showUnits(NO_ABORT);
  else if (closed) layOut();
  bringIntoView(tree.placeToLine.get(place));
  drawRows();
}

function bringIntoView(at) {
  const top = at * ROW;
  const last = treeBox.scrollTop + treeBox.clientHeight - ROW;
  if (top < treeBox.scrollTop) treeBox.scrollTop = Math.max(0, top - ROW);
  else if (top > last) treeBox.scrollTop += top + ROW - last;
}

/* Shows the units whose worst abort is at least this one, or those with a fault. */
function showUnits(least) {
  tree.least = least;
  ["show-all", "show-any", "show-top", "show-faults"].forEach((id, at) => byId(id).setAttribute("aria-pressed", at === least));
  layOut();
}

function moveBy(lines) {
  if (tree.lines.length === 0) return;
  const from = tree.placeToLine.get(tree.active) ?? (lines > 0 ? -1 : tree.lines.length);
  const to = Math.min(tree.lines.length - 1, Math.max(0, from + lines));
  choose(tree.lines[to][0], false);
}

function moveAbort(step) {
  const start = tree.active === NOWHERE ? (step > 0 ? -1 : nodes.length) : tree.active;
  for (let place = start + step; place >= 0 && place < nodes.length; place += step) {
    if (isAborted(place) || isFault(place)) return choose(place, false);
  }
}

function goIn() {
  const held = insideOf(tree.active);
  if (held.length === 0) return;
  if (tree.open.has(tree.active)) choose(held[0], false);
  else toggle(tree.active);
}

function goOut() {
  if (tree.open.has(tree.active)) toggle(tree.active);
  else if (parents[tree.active] !== NOWHERE) choose(parents[tree.active], false);
}

const TREE_KEYS = {
  ArrowDown: () => moveBy(1),
  ArrowUp: () => moveBy(-1),
  PageDown: () => moveBy(Math.max(1, Math.floor(treeBox.clientHeight / ROW) - 1)),
  PageUp: () => moveBy(-Math.max(1, Math.floor(treeBox.clientHeight / ROW) - 1)),
  Home: () => moveBy(-tree.lines.length),
  End: () => moveBy(tree.lines.length),
  ArrowRight: goIn,
  ArrowLeft: goOut,
  " ": () => toggle(tree.active),
  "*": () => openWithin(tree.active),
  Enter: () => { showTab("details"); byId("panel-details").focus(); },
};

treeBox.addEventListener("keydown", (event) => {
  const act = TREE_KEYS[event.key];
  if (!act || event.ctrlKey || event.metaKey || event.altKey) return;
  event.preventDefault();
  if (tree.active === NOWHERE && event.key !== "End") moveBy(1);
  else act();
});
/* A press of the mouse focuses the tree too, and chooses a line by itself. */
let isPressed = false;
treeBox.addEventListener("pointerdown", () => { isPressed = true; });
window.addEventListener("pointerup", () => { isPressed = false; });
treeBox.addEventListener("focus", () => { if (tree.active === NOWHERE && !isPressed) moveBy(1); });
treeBox.addEventListener("scroll", drawRows, { passive: true });
treeBox.addEventListener("click", (event) => {
  const row = event.target.closest(".row");
  if (!row) return;
  const place = Number(row.dataset.place);
  if (event.target.closest(".twist")) toggle(place);
  if (event.target.dataset.rule) showRule(event.target.dataset.rule);
  else if (event.target.dataset.object) showObject(event.target.dataset.object);
  else choose(place, true);
});
treeBox.addEventListener("dblclick", (event) => {
  const row = event.target.closest(".row");
  if (row && !event.target.closest(".twist, .link")) toggle(Number(row.dataset.place));
});
