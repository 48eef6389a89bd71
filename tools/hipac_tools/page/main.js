/* What is shown has an address after the `#`, so the browser's way back works; keys that hold everywhere; the start. */

let isGoing = false;

function address(text, keep) {
  if (isGoing) return;
  const put = keep ? history.pushState : history.replaceState;
  put.call(history, null, "", "#" + encodeURIComponent(text));
}

/* Shows a node. `keep` says whether the way back should lead to what was shown before. */
function choose(place, keep) {
  showTab("details");
  reveal(place);
  showDetails(place);
  drawOverview();
  address("node " + place, keep);
}

function showRule(name) {
  drawRule(name);
  showTab("rules");
  address("rule " + name, true);
}

function showObject(name) {
  drawObject(name);
  showTab("objects");
  address("object " + name, true);
}

function goToAddress() {
  const text = decodeURIComponent(location.hash.slice(1));
  const kind = text.split(" ", 1)[0];
  const name = text.slice(kind.length + 1);
  isGoing = true;
  if (kind === "node" && nodes[Number(name)]) choose(Number(name), false);
  if (kind === "rule" && rulesByName.has(name)) showRule(name);
  if (kind === "object" && objectsByName.has(name)) showObject(name);
  isGoing = false;
}

function summary() {
  const own = data.units.map((unit) => unit[2][0]);
  const aborted = own.filter(isAborted).length;
  const faulty = data.units.filter((unit, at) => faultsOfUnit(at) > 0).length;
  const parts = [data.units.length + " units", own.length - aborted + " committed", aborted + " aborted",
    ...(faulty ? [faulty + " with faults"] : []), data.rules.length + " rules", data.objects.filter((object) => object[2] !== null).length + " objects at the end"];
  return parts.join(" \u00b7 ");
}

const KEYS = {
  "/": () => { searchBox.focus(); searchBox.select(); },
  Escape: () => {
    if (treeBox.clientHeight === 0) showTab("details");
    treeBox.focus();
  },
  n: () => moveAbort(1),
  p: () => moveAbort(-1),
  "?": () => byId("help").showModal(),
  1: () => goToTab("details"), 2: () => goToTab("rules"), 3: () => goToTab("objects"), 4: () => goToTab("graph"),
};

function goToTab(name) {
  showTab(name);
  byId("tab-" + name).focus();
}

document.addEventListener("keydown", (event) => {
  const isTyping = event.target.matches("input") && event.key !== "Escape";
  if (isTyping || event.defaultPrevented || event.ctrlKey || event.metaKey || event.altKey || byId("help").open) return;
  if (!KEYS[event.key]) return;
  event.preventDefault();
  KEYS[event.key]();
});

byId("keys").addEventListener("click", () => byId("help").showModal());
byId("show-all").addEventListener("click", () => showUnits(NO_ABORT));
byId("show-any").addEventListener("click", () => showUnits(INNER_ABORT));
byId("show-top").addEventListener("click", () => showUnits(TOP_ABORT));
byId("show-faults").addEventListener("click", () => showUnits(ANY_FAULT));
byId("next-abort").addEventListener("click", () => moveAbort(1));
byId("former-abort").addEventListener("click", () => moveAbort(-1));
byId("open-all").addEventListener("click", () => {
  nodes.forEach((node, place) => { if (insideOf(place).length > 0) tree.open.add(place); });
  layOut();
});
byId("close-all").addEventListener("click", () => { tree.open.clear(); layOut(); });
window.addEventListener("popstate", goToAddress);
window.addEventListener("resize", () => { drawRows(); drawOverview(); fitAgain(); });
window.matchMedia("(prefers-color-scheme: dark)").addEventListener("change", drawOverview);

function start() {
  byId("summary").textContent = summary();
  if (data.doubt) {
    byId("doubt").textContent = data.doubt + ": only what the report itself tells is shown here.";
    byId("doubt").hidden = false;
  }
  if (data.note) {
    const note = data.note[0].toUpperCase() + data.note.slice(1) + ".";
    byId("note").append(...sentenceElement("p", "", note).childNodes);
    byId("note").hidden = false;
  }
  byId("show-faults").hidden = !data.units.some((unit, at) => faultsOfUnit(at) > 0);
  if (data.units.length <= 12) data.units.forEach((unit) => tree.open.add(unit[2][0]));
  listRules();
  listObjects();
  wireGraph();
  layOut();
  const hint = "Choose a line of the tree, or press / to search.";
  fill("details", [element("h2", "", "Details"), element("p", "faint", hint)]);
  drawOverview();
  goToAddress();
  document.documentElement.dataset.ready = String(Math.round(performance.now()));
}
start();
