/* The panels at the right: a node's details, the rules, the objects, the graph. Long lists are made in pieces. */

const PIECE = 200;
const TABS = ["details", "rules", "objects", "graph"];

function showTab(name) {
  const main = document.querySelector("main");
  const former = main.dataset.tab;
  main.dataset.tab = name;
  for (const tab of TABS) {
    const isShown = tab === name;
    byId("tab-" + tab).setAttribute("aria-selected", isShown);
    byId("tab-" + tab).tabIndex = isShown ? 0 : -1;
    byId("panel-" + tab).hidden = !isShown;
  }
  if (former !== name) { fitAgain(); drawRows(); drawOverview(); }
}

function fill(name, parts) {
  const panel = byId("panel-" + name);
  panel.replaceChildren(...parts.filter(Boolean));
  panel.scrollTop = 0;
}

function button(text, act, style) {
  const made = element("button", style, text, { type: "button" });
  made.addEventListener("click", act);
  return made;
}

/* The first of many things, and a button for more of them. */
function inPieces(box, things, make) {
  let shown = 0;
  const more = button("", () => addPiece());
  function addPiece() {
    box.append(...things.slice(shown, shown + PIECE).map(make));
    shown = Math.min(things.length, shown + PIECE);
    more.textContent = "Show more (" + (things.length - shown) + " left)";
    more.hidden = shown >= things.length;
  }
  addPiece();
  return more;
}

function table(heads, things, make) {
  const made = element("table");
  const head = element("tr");
  head.append(...heads.map((text) => element("th", "", text, { scope: "col" })));
  const body = element("tbody");
  const more = inPieces(body, things, make);
  made.append(element("thead"), body);
  made.firstChild.append(head);
  const box = element("div");
  box.append(made, more);
  return box;
}

function cells(style, ...contents) {
  const row = element("tr", style);
  for (const content of contents) {
    const cell = element("td");
    cell.append(content);
    row.append(cell);
  }
  return row;
}

/* A node's details */

function shortName(place) {
  if (kindOf(place) === TRANSACTION) return nodes[place][3] || "unit " + nodes[place][2];
  return said(place).slice(0, 2).map(([style, text]) => (style === "end" ? "" : text)).filter(Boolean).join(" ");
}

function showDetails(place) {
  const chips = element("div", "chips");
  for (const [style, text] of said(place).slice(1)) {
    if (text && ["chip", "condition", "end"].includes(style)) chips.append(piece(style, text));
  }
  if (undoneBy[place] !== NOWHERE) chips.append(element("span", "chip warn", "undone"));
  const head = element("h2", "", shortName(place));
  fill("details", [head, chips, trail(place), facts(place), actions(place), emitted(place)]);
}

function trail(place) {
  const rounds = [];
  for (let round = parents[place]; round !== NOWHERE; round = parents[round]) rounds.unshift(round);
  if (rounds.length === 0) return null;
  const made = element("nav", "trail");
  made.setAttribute("aria-label", "Where it stands");
  made.append(element("span", "faint", "in"));
  for (const round of rounds) made.append(button(shortName(round), () => choose(round, true)));
  return made;
}

function facts(place) {
  const made = element("dl", "facts");
  const node = nodes[place];
  const rows = factsOf(place);
  if (node[0] === OPERATION && node[4]) rows.unshift(["Row", node[4]]);
  if (node[0] === EMIT) rows.unshift(["Value", node[2]]);
  if (node[0] === TRANSACTION) rows.push(["Within it", contents(place)]);
  for (const [label, sentence] of rows) {
    const style = { Aborted: "bad", Undone: "bad", Fault: "doubt" }[label] ?? "";
    const isPlain = label === "Row" || label === "Value";
    const content = isPlain ? element("dd", "name", sentence) : sentenceElement("dd", style, sentence);
    made.append(element("dt", "", label), content);
  }
  return made;
}

function contents(place) {
  const names = ["transaction", "operation", "emit", "sub", "firing", "action"];
  const counts = [0, 0, 0, 0, 0, 0];
  const waiting = [...insideOf(place)];
  while (waiting.length > 0) {
    const here = waiting.pop();
    counts[kindOf(here)] += 1;
    waiting.push(...insideOf(here));
  }
  const said = counts.map((count, kind) => (count ? count + " " + names[kind] + (count === 1 ? "" : "s") : ""));
  return said.filter(Boolean).join(", ") || "nothing";
}

function actions(place) {
  const made = element("div", "actions");
  const node = nodes[place];
  for (const [style, text] of said(place)) {
    if (style === "name rule") made.append(button("Rule " + text, () => showRule(text)));
    if (style === "name object") made.append(button("History of " + text, () => showObject(text)));
  }
  const trigger = node[0] === FIRE || node[0] === ACT || node[0] === TRANSACTION ? triggerOf(place) : NOWHERE;
  if (trigger !== NOWHERE) made.append(button("To its trigger", () => choose(trigger, true)));
  if (undoneBy[place] !== NOWHERE) made.append(button("To what undid it", () => choose(undoneBy[place], true)));
  return made;
}

function emitted(place) {
  const node = nodes[place];
  if (node[0] !== TRANSACTION || node[5].length === 0) return null;
  const box = element("div");
  const values = table(["Value"], node[5], (value) => cells("", element("span", "name", value)));
  box.append(element("h3", "", "Emitted"), values);
  return box;
}

/* Rules */

function listRules() {
  const rows = table(["Rule", "At the end", "Firings"], data.rules, ([name, status, firings]) =>
    cells("", button(name, () => showRule(name)), element("span", statusChip(status), status), String(firings.length)));
  fill("rules", [element("h2", "", "Rules"), rows]);
}

const statusChip = (status) => (status === "enabled" ? "chip good" : status === "disabled" ? "chip warn" : "chip");

function drawRule(name) {
  const [, status, firings, operations] = rulesByName.get(name);
  const chips = element("div", "chips");
  chips.append(element("span", statusChip(status), status + " at the end"));
  const all = button("All rules", () => { listRules(); byId("panel-rules").focus(); }, "plain");
  const fired = table(["Unit", "Firing", "Trigger"], firings, (place) =>
    cells(rowFate(undoneBy[place]), unitButton(place), firingChips(place), fact(place, "Trigger")));
  const worked = table(["Unit", "Operation", "Became"], operations, (place) =>
    cells(rowFate(undoneBy[place]), unitButton(place), nodes[place][2], outcome(undoneBy[place])));
  const text = data.texts[name] ? element("pre", "", data.texts[name]) : null;
  fill("rules", [all, element("h2", "", "Rule " + name), chips, text,
    element("h3", "", "Firings (" + firings.length + ")"), fired,
    element("h3", "", "Operations on it (" + operations.length + ")"), worked]);
}

const rowFate = (undone) => (undone === NOWHERE ? "" : "undone");
const unitButton = (place) => button("unit " + unitNumber(place), () => choose(place, true));

function firingChips(place) {
  const box = element("span", "chips");
  box.style.marginTop = "0";
  for (const [style, text] of said(place).slice(2)) box.append(piece(style, text));
  return box;
}

/* Objects */

const outcome = (undone) => {
  if (undone === NOWHERE) return element("span", "chip good", "committed");
  return button("undone by " + shortName(undone), () => choose(undone, true));
};

function listObjects() {
  const box = element("div");
  const filter = element("input", "filter", undefined, { type: "search" });
  filter.placeholder = "Filter by class, key or value";
  filter.setAttribute("aria-label", "Filter the objects");
  const draw = () => {
    const wanted = filter.value.toLowerCase();
    const fits = ([name, key, row]) => (name + " " + key + " " + (row ?? "")).toLowerCase().includes(wanted);
    const found = data.objects.filter(fits);
    box.replaceChildren(table(["Object", "At the end", "Operations"], found, objectRow));
  };
  filter.addEventListener("input", draw);
  draw();
  fill("objects", [element("h2", "", "Objects and the final state"), filter, box]);
}

function objectRow([name, key, row, history]) {
  const state = row === null ? element("span", "chip", "not there") : element("span", "name", row || "there");
  return cells("", button(name + " " + key, () => showObject(name + " " + key)), state, String(history.length));
}

function drawObject(name) {
  const [, , row, history] = objectsByName.get(name);
  const all = button("All objects", () => { listObjects(); byId("panel-objects").focus(); }, "plain");
  const state = element("p", "faint", row === null ? "It isn't there at the end." : "At the end: ");
  if (row !== null) state.append(element("span", "name", row || "there, without fields"));
  const rows = table(["Unit", "What", "Row after it", "Became"], history, ([place, undone]) => {
    const after = element("span", "name", nodes[place][4]);
    return cells(rowFate(undone), unitButton(place), nodes[place][2], after, outcome(undone));
  });
  fill("objects", [all, element("h2", "", name), state, element("h3", "", "History (" + history.length + ")"), rows]);
}

/* Tabs and the graph */

byId("tabs").addEventListener("click", (event) => {
  const tab = event.target.closest("[role=tab]");
  if (tab) showTab(tab.id.slice(4));
});
byId("tabs").addEventListener("keydown", (event) => {
  const step = { ArrowRight: 1, ArrowLeft: -1 }[event.key];
  if (!step) return;
  const at = TABS.findIndex((name) => byId("tab-" + name).getAttribute("aria-selected") === "true");
  const name = TABS[(at + step + TABS.length) % TABS.length];
  showTab(name);
  byId("tab-" + name).focus();
});

/* The picture begins as wide as its box, or smaller, and stays so until somebody makes it smaller or larger. Its whole
   height is seen too where its text stays readable. */
const LEAST_FOR_HEIGHT = 0.6;
const [LEAST_ZOOM, MOST_ZOOM] = [0.1, 4];
let zoom = 1;
let isFitted = true;

function setZoom(factor) {
  const picture = byId("graph").querySelector("svg");
  if (!picture) return;
  zoom = Math.min(MOST_ZOOM, Math.max(LEAST_ZOOM, factor));
  picture.style.width = naturalSize(picture)[0] * zoom + "px";
}

function zoomGraph(factor) {
  isFitted = false;
  setZoom(zoom * factor);
}

function fitGraph() {
  const box = byId("graph");
  const picture = box.querySelector("svg");
  isFitted = true;
  if (!picture || box.clientWidth === 0) return;
  const [width, height] = naturalSize(picture);
  const space = getComputedStyle(box);
  const across = (box.clientWidth - parseFloat(space.paddingLeft) - parseFloat(space.paddingRight)) / width;
  const down = (box.clientHeight - parseFloat(space.paddingTop) - parseFloat(space.paddingBottom)) / height;
  setZoom(Math.min(1, across, Math.max(down, LEAST_FOR_HEIGHT)));
}

function fitAgain() {
  if (isFitted) fitGraph();
}

/* The width and the height in dots: Graphviz gives them in points. */
function naturalSize(picture) {
  const dots = picture.getAttribute("width").endsWith("pt") ? 4 / 3 : 1;
  return [parseFloat(picture.getAttribute("width")) * dots, parseFloat(picture.getAttribute("height")) * dots];
}

/* The names of rules in the picture open the rules. */
function wireGraph() {
  for (const text of byId("graph").querySelectorAll("text")) {
    const name = text.textContent.trim();
    if (!rulesByName.has(name)) continue;
    text.setAttribute("role", "button");
    text.setAttribute("tabindex", "0");
    text.setAttribute("aria-label", "Rule " + name);
    text.addEventListener("click", () => showRule(name));
    text.addEventListener("keydown", (event) => {
      if (event.key === "Enter" || event.key === " ") { event.preventDefault(); showRule(name); }
    });
  }
  byId("fit").addEventListener("click", fitGraph);
  byId("larger").addEventListener("click", () => zoomGraph(1.25));
  byId("smaller").addEventListener("click", () => zoomGraph(0.8));
}
