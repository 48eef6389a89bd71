"use strict";

/* What the page knows, made once from the data in it. A node is known by its place in the list of all nodes. */

const data = JSON.parse(document.getElementById("data").textContent);
const [TRANSACTION, OPERATION, EMIT, SUB, FIRE, ACT] = [0, 1, 2, 3, 4, 5];
const NOWHERE = -1;
const [NO_ABORT, INNER_ABORT, TOP_ABORT, ANY_FAULT] = [0, 1, 2, 3];
const FACTS = [6, 5, 3, 3, 6, 5];
const END = [4, NOWHERE, NOWHERE, 2, 5, 4];
const ON_OBJECTS = ["create", "update", "delete"];

const nodes = data.nodes;
const parents = new Int32Array(nodes.length).fill(NOWHERE);
const undoneBy = new Int32Array(nodes.length).fill(NOWHERE);
const inside = new Array(nodes.length);
const unitOf = new Int32Array(nodes.length);
const worstOf = new Uint8Array(data.units.length);
const rulesByName = new Map(data.rules.map((rule) => [rule[0], rule]));
const objectsByName = new Map(data.objects.map((object) => [object[0] + " " + object[1], object]));

const kindOf = (place) => nodes[place][0];
const endOf = (place) => (END[kindOf(place)] < 0 ? "" : nodes[place][END[kindOf(place)]]);
const isAborted = (place) => endOf(place).startsWith("aborted");
const isFault = (place) => kindOf(place) === FIRE && nodes[place][4].startsWith("fault");
const faultsOfUnit = (unit) => data.units[unit][3];
const rawFactsOf = (place) => nodes[place][FACTS[kindOf(place)]];
const factsOf = (place) => rawFactsOf(place).map(([label, sentence]) => [label, data.sentences[sentence]]);
const triggerOf = (place) => nodes[place][FACTS[kindOf(place)] + 1] ?? NOWHERE;
const unitNumber = (place) => data.units[unitOf[place]][0];
const rootOf = (place) => data.units[unitOf[place]][2][0];
const insideOf = (place) => inside[place] || [];

const countFacts = (place, label) => rawFactsOf(place).filter((one) => one[0] === label).length;

function fact(place, label) {
  const found = rawFactsOf(place).find((one) => one[0] === label);
  return found ? data.sentences[found[1]] : "";
}

/* Parents stand before what they hold, so one pass gives each node what its parent knows. */
function connect() {
  nodes.forEach((node, place) => {
    const parent = node[1];
    if (parent === NOWHERE) return;
    parents[place] = parent;
    (inside[parent] ||= []).push(place);
    undoneBy[place] = isAborted(parent) ? parent : undoneBy[parent];
  });
  data.units.forEach(([, , transactions], unit) => {
    const [own, ...cascade] = transactions;
    for (const place of cascade) {
      parents[place] = own;
      (inside[own] ||= []).push(place);
    }
    const last = unit + 1 < data.units.length ? data.units[unit + 1][2][0] : nodes.length;
    for (let place = own; place < last; place += 1) {
      unitOf[place] = unit;
      if (!isAborted(place)) continue;
      worstOf[unit] = Math.max(worstOf[unit], kindOf(place) === TRANSACTION ? TOP_ABORT : INNER_ABORT);
    }
  });
}
connect();

/* What a node's line says, as pairs of a style and a text. The tree, the search and the details use the same words. */
function said(place) {
  const node = nodes[place];
  switch (node[0]) {
    case TRANSACTION: return saidOfTransaction(place, node);
    case OPERATION: return [["kind", node[2]], [nameStyle(node[2]), node[3]], ["row-text", node[4]]];
    case EMIT: return [["kind", "emit"], ["value", node[2]]];
    case SUB: return [["kind", "sub"], ["end", node[2]]];
    case FIRE: return [["kind", "fire"], ...saidOfTask(node), ["condition", node[4]], ["end", node[5]]];
    default: return [["kind", "act"], ...saidOfTask(node), ["end", node[4]]];
  }
}

const nameStyle = (verb) => (ON_OBJECTS.includes(verb) ? "name object" : "name rule");
const saidOfTask = (node) => [["name rule", node[2]], ["chip", node[3]]];

function saidOfTransaction(place, node) {
  const moment = data.units[unitOf[place]][1];
  if (node[3] === "") {
    return [["kind", "unit " + node[2]], ["chip", moment === null ? "" : "time " + moment], ["end", node[4]]];
  }
  const [mode, rule] = node[3].split(" ");
  return [["chip", mode], ["name rule", rule], ["end", node[4]]];
}

const lineOf = (place) => said(place).map(([, text]) => text).filter(Boolean).join(" ");

/* The chip in which an end or a condition stands. */
function chipOf(style, text) {
  if (style === "condition") return text === "satisfied" ? "chip good" : text === "unsatisfied" ? "chip" : "chip warn";
  if (text.startsWith("aborted")) return "chip bad";
  return text === "committed" ? "chip good" : "chip";
}

function element(name, style, text, more) {
  const made = document.createElement(name);
  if (style) made.className = style;
  if (text !== undefined) made.textContent = text;
  return Object.assign(made, more);
}

/* A sentence, with what stands between backticks as code. */
function sentenceElement(name, style, sentence) {
  const made = element(name, style);
  sentence.split("`").forEach((text, at) => made.append(at % 2 === 1 ? element("code", "", text) : text));
  return made;
}

const byId = (id) => document.getElementById(id);
