/* Search over units, rules, objects and every line. The texts are made at the first search. */

const MOST_FOUND = 200;
const MOST_NAMES = 40;
const search = { texts: null, found: [], active: 0 };
const searchBox = byId("search");
const resultsBox = byId("results");

function textsOfNodes() {
  search.texts ||= nodes.map((node, place) => lineOf(place).toLowerCase());
  return search.texts;
}

function find(wanted) {
  const words = wanted.toLowerCase().split(/\s+/).filter(Boolean);
  if (words.length === 0) return { found: [], count: 0 };
  const units = foundUnits(words);
  const found = [...units, ...foundNames("rule", [...rulesByName.keys()], words),
    ...foundNames("object", [...objectsByName.keys()], words)];
  let count = found.length;
  textsOfNodes().forEach((text, place) => {
    if (!words.every((word) => text.includes(word)) || units.some((unit) => unit.place === place)) return;
    count += 1;
    if (found.length >= MOST_FOUND) return;
    found.push({ where: "unit " + unitNumber(place), what: lineOf(place), go: () => choose(place, true) });
  });
  return { found, count };
}

/* A number alone, or with the word unit before it, names a unit. */
function foundUnits(words) {
  const number = words[words.length - 1];
  if (words.length > 2 || (words.length === 2 && words[0] !== "unit")) return [];
  const unit = data.units.find((one) => String(one[0]) === number);
  const place = unit ? unit[2][0] : NOWHERE;
  return unit ? [{ where: "unit", what: lineOf(place), place, go: () => choose(place, true) }] : [];
}

function foundNames(kind, names, words) {
  const fitting = names.filter((name) => words.every((word) => (kind + " " + name).toLowerCase().includes(word)));
  const show = kind === "rule" ? showRule : showObject;
  return fitting.slice(0, MOST_NAMES).map((name) => ({ where: kind, what: name, go: () => show(name) }));
}

function drawResults() {
  const { found, count } = find(searchBox.value);
  search.found = found;
  search.active = 0;
  const options = found.map((one, at) => {
    const option = element("div", "option", undefined, { id: "option-" + at });
    option.setAttribute("role", "option");
    option.append(element("span", "where", one.where), element("span", "what", one.what));
    option.addEventListener("mousedown", (event) => { event.preventDefault(); take(at); });
    return option;
  });
  byId("options").replaceChildren(...options);
  byId("found").textContent = count + " found" + (count > found.length ? ", the first " + found.length + " shown" : "");
  const isOpen = searchBox.value.trim() !== "";
  resultsBox.hidden = !isOpen;
  searchBox.setAttribute("aria-expanded", isOpen);
  markActive();
}

function markActive() {
  const options = byId("options").children;
  for (let at = 0; at < options.length; at += 1) {
    options[at].classList.toggle("active", at === search.active);
    options[at].setAttribute("aria-selected", at === search.active);
  }
  if (options.length === 0) return searchBox.removeAttribute("aria-activedescendant");
  searchBox.setAttribute("aria-activedescendant", "option-" + search.active);
  options[search.active].scrollIntoView({ block: "nearest" });
}

function closeResults() {
  resultsBox.hidden = true;
  searchBox.setAttribute("aria-expanded", "false");
  searchBox.removeAttribute("aria-activedescendant");
}

function take(at) {
  const one = search.found[at];
  closeResults();
  if (!one) return;
  one.go();
  if (one.where === "rule" || one.where === "object") byId("panel-" + one.where + "s").focus();
  else treeBox.focus();
}

searchBox.addEventListener("input", drawResults);
searchBox.addEventListener("focus", () => { if (searchBox.value.trim()) drawResults(); });
searchBox.addEventListener("blur", closeResults);
searchBox.addEventListener("keydown", (event) => {
  const step = { ArrowDown: 1, ArrowUp: -1 }[event.key];
  if (step && search.found.length > 0) {
    event.preventDefault();
    search.active = (search.active + step + search.found.length) % search.found.length;
    markActive();
  } else if (event.key === "Enter") {
    event.preventDefault();
    take(search.active);
  } else if (event.key === "Escape") {
    event.preventDefault();
    event.stopPropagation();
    if (searchBox.value !== "") { searchBox.value = ""; closeResults(); } else treeBox.focus();
  }
});
