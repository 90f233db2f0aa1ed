// Shows a refutation step by step. DATA has its clauses and steps in packed blocks, of which those are unpacked that are
// looked at; everything else is a row of letters or a few numbers.
"use strict";

const ROW = 24, TALLEST = 12000000, KEPT = 60;
const PRESENT = new Set(["path", "flow", "tree", "cycle"]), HOLDS = new Set(["path", "flow", "tree", "order"]);
const first = DATA.clauses + DATA.assumed + 1, last = first + DATA.kinds.length - 1;
const unpackedBlocks = new Map(), words = new Map();
let shown = [], filter = "all", chosen = 0;

async function unpack(text) {
  const bytes = Uint8Array.from(atob(text), (letter) => letter.charCodeAt(0));
  const stream = new Blob([bytes]).stream().pipeThrough(new DecompressionStream("deflate-raw"));
  return new Response(stream).text();
}

// The row of a clause or a step by its number.
async function rowOf(number) {
  const block = Math.floor((number - 1) / DATA.block);
  if (!unpackedBlocks.has(block)) {
    if (unpackedBlocks.size >= KEPT) unpackedBlocks.delete(unpackedBlocks.keys().next().value);
    unpackedBlocks.set(block, unpack(DATA.blocks[block]).then((text) => text.split("\n")));
  }
  return (await unpackedBlocks.get(block))[(number - 1) % DATA.block];
}

// What a number stands for: a clause of the problem, or a step with its word, predicate, clause and list.
async function stepOf(number) {
  const tokens = (await rowOf(number)).split(" ").filter(Boolean);
  if (number < first) return { number, word: number > DATA.clauses ? "assumed" : "clause", clause: tokens.map(Number), listed: [] };
  const word = tokens[0], begin = word === "chain" ? 1 : 2, end = tokens.indexOf("0", begin);
  const predicate = word === "chain" ? 0 : Number(tokens[1]);
  const list = tokens.slice(end + 1);
  return { number, word, predicate, clause: tokens.slice(begin, end).map(Number), listed: list.map(Number), exact: list };
}

function element(name, text, kind) {
  const made = document.createElement(name);
  if (text !== undefined) made.textContent = text;
  if (kind) made.className = kind;
  return made;
}

function literalText(literal) {
  const name = words.get(Math.abs(literal)) || `variable ${Math.abs(literal)}`;
  return literal < 0 ? `not ${name}` : name;
}

function clauseElement(literals, gone) {
  const made = element("span");
  if (!literals.length) made.append(element("span", "the empty clause: nothing makes it true", "empty"));
  literals.forEach((literal, place) => {
    if (place) made.append(" or ");
    const box = element("span", literalText(literal), "literal" + (gone === Math.abs(literal) ? " gone" : ""));
    box.title = String(literal);
    made.append(box);
  });
  return made;
}

function link(number) {
  const made = element("span", String(number), "named");
  made.onclick = () => choose(number);
  return made;
}

// ---- the list

function numbersOf(kind) {
  if (kind === "named") return DATA.named;
  if (kind === "rested") return DATA.rested;
  const all = [];
  for (let at = 0; at < DATA.kinds.length; at++) {
    const letter = DATA.kinds[at];
    if (kind === "all" || (kind === "lemmas" ? letter !== "c" : letter === kind)) all.push(first + at);
  }
  return all;
}

function setFilter(kind) {
  filter = kind;
  shown = numbersOf(kind);
  for (const button of document.querySelectorAll("#filters button")) button.classList.toggle("on", button.dataset.kind === kind);
  const list = document.getElementById("list");
  document.getElementById("rows").style.height = `${Math.min(shown.length * ROW, TALLEST)}px`;
  const place = shown.indexOf(chosen);
  list.scrollTop = place < 0 ? 0 : scrollOf(place);
  fillRows();
}

// Where a row stands in a list that may be taller than browsers have elements.
function scrollOf(place) {
  const tall = shown.length * ROW;
  return tall <= TALLEST ? place * ROW : (place / shown.length) * TALLEST;
}

async function fillRows() {
  const list = document.getElementById("list"), rows = document.getElementById("rows");
  const scale = Math.min(1, TALLEST / Math.max(1, shown.length * ROW));
  const begin = Math.max(0, Math.floor(list.scrollTop / (ROW * scale)) - 3);
  const count = Math.ceil(list.clientHeight / ROW) + 6, wanted = shown.slice(begin, begin + count);
  const steps = await Promise.all(wanted.map(stepOf));
  rows.replaceChildren(...steps.map((step, place) => {
    const made = element("div", undefined, "row" + (step.number === chosen ? " on" : ""));
    made.style.top = `${scale === 1 ? (begin + place) * ROW : list.scrollTop + place * ROW}px`;
    made.append(element("b", String(step.number)), `${step.word}: ${step.clause.map(literalText).join(" or ") || "empty"}`);
    made.onclick = () => choose(step.number);
    return made;
  }));
}

function makeFilters() {
  const box = document.getElementById("filters"), counts = {};
  for (const letter of DATA.kinds) counts[letter] = (counts[letter] || 0) + 1;
  const lemmas = DATA.kinds.length - (counts.c || 0);
  const kinds = [["all", "all", DATA.kinds.length], ["lemmas", "lemmas", lemmas]];
  for (const [letter, word] of Object.entries(DATA.letters)) if (counts[letter]) kinds.push([letter, word, counts[letter]]);
  kinds.push(["named", "named by the last chain", DATA.named.length]);
  kinds.push(["rested", "lemmas that the last chain rests on", DATA.rested.length]);
  for (const [kind, text, count] of kinds) {
    const button = element("button", `${text} (${count.toLocaleString("en")})`);
    button.dataset.kind = kind;
    button.onclick = () => setFilter(kind);
    box.append(button);
  }
  const input = element("input");
  input.placeholder = "number";
  input.onchange = () => choose(Number(input.value));
  box.append(input);
}

// ---- one step

async function choose(number) {
  if (!(number >= 1 && number <= last)) return;
  chosen = number;
  history.replaceState(null, "", `#${number}`);
  const step = await stepOf(number), box = document.getElementById("step");
  const title = number < first ? `Clause ${number} of what was asked` : `Step ${number}: ${step.word}`;
  box.replaceChildren(element("h2", title), clauseElement(step.clause));
  if (step.word === "chain") box.append(await chainElement(step));
  else if (number >= first) box.append(...lemmaElements(step));
  fillRows();
}

// The clauses of a chain, and after each of them what is left.
async function chainElement(step) {
  const table = element("table");
  let left = null;
  for (const number of step.listed) {
    const named = await stepOf(number), clash = left && named.clause.find((literal) => left.has(-literal));
    const row = element("tr"), cells = [element("td"), element("td"), element("td")];
    cells[0].append(link(number), ` ${named.word}`);
    cells[1].append(clauseElement(named.clause, clash ? Math.abs(clash) : 0));
    if (left === null) left = new Set(named.clause);
    else {
      for (const literal of named.clause) left.add(literal);
      if (clash) { left.delete(clash); left.delete(-clash); }
    }
    cells[2].append("leaves ", clauseElement([...left]));
    row.append(...cells);
    table.append(row);
  }
  return table;
}

const SAYS = {
  path: "A walk along these edges shows it, where they are there.", cut: "No edge that may be there leaves the filled nodes.",
  label: "No edge leads to a number greater by more than its length; other nodes are too far.",
  flow: "These edges carry the flow, as amount/capacity.", flowcut: "What may still leave the filled nodes carries too little.",
  tree: "These edges are a spanning tree that is light enough.", split: "No edge that may be there joins the filled nodes with the others.",
  least: "A lightest spanning tree of the edges that may be there is too heavy.", cycle: "These edges make a circle.",
  order: "Each edge that may be there leads from a lower place to a higher one.",
};

function lemmaElements(step) {
  const [graph, said] = DATA.predicates[step.predicate - 1], { drawn } = DATA.graphs[graph];
  const holds = HOLDS.has(step.word) ? "holds" : "fails";
  const parts = [element("p", `Predicate ${step.predicate}, ${said}, ${holds} unless another literal is true.`)];
  parts.push(element("p", SAYS[step.word] || ""));
  if (drawn) parts.push(pictureOf(step, drawn));
  else parts.push(element("p", `The list: ${step.exact.join(" ")} (the graph is too large for a picture)`));
  return parts;
}

// What a lemma marks: edges, the edges on whose absence it rests, nodes, and what is written at either.
function marksOf(step, drawn) {
  const clause = new Set(step.clause), marks = { strong: new Set(), against: new Set(), filled: new Set(), notes: new Map(), labels: new Map() };
  const isPresent = PRESENT.has(step.word);
  marks.present = new Set(drawn.edges.filter(([, , , x]) => (isPresent ? clause.has(-x) : !clause.has(x))).map(([n]) => n));
  if (!isPresent) for (const [n, , , x] of drawn.edges) if (clause.has(x)) marks.against.add(n);
  const pairs = step.exact.flatMap((value, place) => (place % 2 ? [] : [[step.listed[place], step.exact[place + 1]]]));
  if (["path", "tree", "least", "cycle"].includes(step.word)) step.listed.forEach((n) => marks.strong.add(n));
  else if (step.word === "flow") for (const [n, amount] of pairs) { if (amount !== "0") { marks.strong.add(n); marks.notes.set(n, amount); } }
  else if (step.word === "label") for (const [node, value] of pairs) { marks.filled.add(node); marks.labels.set(node, value); }
  else if (step.word === "order") step.listed.forEach((node, place) => marks.labels.set(node, `${place + 1}.`));
  else step.listed.forEach((node) => marks.filled.add(node));
  return marks;
}

function shape(name, attributes, text) {
  const made = document.createElementNS("http://www.w3.org/2000/svg", name);
  for (const [key, value] of Object.entries(attributes)) made.setAttribute(key, value);
  if (text !== undefined) made.textContent = text;
  return made;
}

// A long line that would run through a node is bent aside by the first of these that keeps clear of all nodes.
const STEP = 90, RADIUS = 20, BENDS = [34, -34, 60, -60, 90, -90], MOST_NODES = 150, LONG = 1.2 * STEP, CLEAR = RADIUS + 4;

// The point towards which a line begins and ends that is bent aside by so many pixels.
function bent([x0, y0], [x1, y1], bend) {
  const long = Math.max(1, Math.hypot(x1 - x0, y1 - y0));
  return [(x0 + x1) / 2 - (2 * bend * (y1 - y0)) / long, (y0 + y1) / 2 + (2 * bend * (x1 - x0)) / long];
}

// The point that lies so far from the first in the direction of the second.
function towards([x0, y0], [x1, y1], by) {
  const long = Math.max(0.001, Math.hypot(x1 - x0, y1 - y0));
  return [x0 + ((x1 - x0) * by) / long, y0 + ((y1 - y0) * by) / long];
}

// Whether a line so bent stays away from all nodes that it doesn't join.
function isClear(at, start, end, bend) {
  const middle = bent(at[start], at[end], bend);
  for (let t = 1 / 24; t < 1; t += 1 / 24) {
    const [x, y] = [0, 1].map((axis) => (1 - t) ** 2 * at[start][axis] + 2 * t * (1 - t) * middle[axis] + t * t * at[end][axis]);
    if (at.some((place, node) => node !== start && node !== end && Math.hypot(place[0] - x, place[1] - y) <= CLEAR)) return false;
  }
  return true;
}

// The bend of a line, another one where it would run through a node, and not as one before it.
function around(at, taken, start, end, bend) {
  if (at.length > MOST_NODES || Math.hypot(at[start][0] - at[end][0], at[start][1] - at[end][1]) < LONG) return bend;
  for (const tried of [bend, ...BENDS]) {
    const side = start < end ? [start, end, tried].join() : [end, start, -tried].join();
    if (!taken.has(side) && isClear(at, start, end, tried)) {
      taken.add(side);
      return tried;
    }
  }
  return bend;
}

// The edges as lines, those that are marked last; those between the same nodes are bent apart.
function linesOf(at, marks, drawn) {
  const between = new Map(), taken = new Set();
  const order = (n) => (marks.strong.has(n) ? 3 : marks.against.has(n) ? 2 : marks.present.has(n) ? 1 : 0);
  // A link is one line, of that direction which is marked.
  const one = drawn.edges.filter(([n, , , , , side]) => !side || (side === 2) === (marks.strong.has(side === 2 ? n : n + 1)));
  const pairOf = ([, start, end]) => [Math.min(start, end), Math.max(start, end)].join();
  for (const edge of one) between.set(pairOf(edge), [...(between.get(pairOf(edge)) || []), edge]);
  const lines = [...between.values()].flatMap((bundle) => bundle.map((edge, place) => {
    const [number, start, end, , , side] = edge, apart = 22 * (place - (bundle.length - 1) / 2);
    const bend = around(at, taken, start, end, start < end ? apart : -apart);
    return { edge, bend, height: order(number), arrow: !side || marks.strong.has(number) };
  }));
  return lines.sort((a, b) => a.height - b.height);
}

function pictureOf(step, drawn) {
  const marks = marksOf(step, drawn), at = drawn.places.map(([x, y]) => [STEP * x, STEP * y]), lines = linesOf(at, marks, drawn);
  const seen = [...at, ...lines.map(({ edge: [, start, end], bend }) => bent(at[start], at[end], bend))];
  const xs = seen.map((p) => p[0]), ys = seen.map((p) => p[1]), left = Math.min(...xs) - 60, top = Math.min(...ys) - 60;
  const size = [Math.max(...xs) + 60 - left, Math.max(...ys) + 60 - top];
  const svg = shape("svg", { viewBox: `${left} ${top} ${size[0]} ${size[1]}`, width: size[0], height: size[1], style: "max-width:100%;height:auto" });
  lines.forEach((line) => drawEdge(svg, at, marks, line));
  at.forEach(([x, y], node) => {
    svg.append(shape("circle", { cx: x, cy: y, r: RADIUS, fill: marks.filled.has(node) ? "#fde9b8" : "white", stroke: "#222", "stroke-width": 2 }));
    svg.append(shape("text", { x, y: y + 5, "text-anchor": "middle", "font-size": drawn.labels[node].length > 4 ? 9 : 13 }, drawn.labels[node]));
    if (marks.labels.has(node)) svg.append(shape("text", { x: x + 24, y: y + 24, fill: "#0072b2", "font-size": 13 }, marks.labels.get(node)));
  });
  return svg;
}

function drawEdge(svg, at, marks, { edge: [number, start, end, , weight], bend, height, arrow }) {
  const style = [["#c4c4c4", 1.2, "3 4"], ["#222", 1.6, ""], ["#d55e00", 2.4, "7 5"], ["#0072b2", 4.5, ""]][height];
  const [x0, y0] = at[start], [x1, y1] = at[end], paint = { fill: "none", stroke: style[0], "stroke-width": style[1], "stroke-dasharray": style[2] };
  if (start === end) { svg.append(shape("circle", { cx: x0 + RADIUS, cy: y0 - RADIUS, r: 11, ...paint })); return; }
  const middle = bent(at[start], at[end], bend), stop = towards(at[end], middle, RADIUS + (arrow ? style[1] + 4 : 0));
  svg.append(shape("path", { d: `M${towards(at[start], middle, RADIUS)} Q${middle} ${stop}`, ...paint }));
  if (arrow) {
    const tip = towards(at[end], middle, RADIUS), back = towards(tip, middle, 6 + 1.5 * style[1]);
    const [dx, dy] = [0.45 * (tip[0] - back[0]), 0.45 * (tip[1] - back[1])];
    svg.append(shape("polygon", { points: [tip, [back[0] - dy, back[1] + dx], [back[0] + dy, back[1] - dx]].join(" "), fill: style[0] }));
  }
  const note = marks.notes.has(number) ? `${marks.notes.get(number)}/${weight}` : height && weight !== "1" ? weight : "";
  const off = bend + 9, long = Math.max(1, Math.hypot(x1 - x0, y1 - y0)), aside = [-(y1 - y0) / long, (x1 - x0) / long];
  if (note) svg.append(shape("text", { x: (x0 + x1) / 2 + off * aside[0], y: (y0 + y1) / 2 + off * aside[1] + 4, fill: style[0], "font-size": 11, "text-anchor": "middle" }, note));
}

// ---- the beginning

async function begin() {
  for (const line of (await unpack(DATA.words)).split("\n")) {
    const blank = line.indexOf(" ");
    if (blank > 0) words.set(Number(line.slice(0, blank)), line.slice(blank + 1));
  }
  makeFilters();
  const list = document.getElementById("list");
  list.onscroll = fillRows;
  window.onhashchange = () => choose(Number(location.hash.slice(1)));
  list.onkeydown = (event) => {
    const by = { ArrowDown: 1, ArrowUp: -1 }[event.key], place = shown.indexOf(chosen);
    if (!by) return;
    event.preventDefault();
    const next = shown[Math.min(shown.length - 1, Math.max(0, place + by))];
    list.scrollTop = Math.min(Math.max(list.scrollTop, scrollOf(shown.indexOf(next)) - list.clientHeight + 2 * ROW), scrollOf(shown.indexOf(next)));
    choose(next);
  };
  setFilter("all");
  await choose(Number(location.hash.slice(1)) || last);
  const place = shown.indexOf(chosen);
  if (place >= 0) list.scrollTop = scrollOf(Math.max(0, place - 5));
}

begin();
