// What is chosen, and how it is shown.

// What the page begins with is chosen, too, but nobody asked for it.
const chosen = { region: null, element: null, step: null, isFirst: false };

// What the pointer is on: the page shows for as long what a click there would fix. Null where it is on nothing.
let hovered = null;

const byId = (id) => document.getElementById(id);
const all = (selector, within = document) => [...within.querySelectorAll(selector)];

// All that stands for an element, and all that is drawn for an edge `P-Q`.
const places = new Map();
for (const place of all("[data-p]")) addTo(places, Number(place.dataset.p), place);
const edges = new Map();
for (const edge of all("[data-edge]")) {
  for (const way of edge.dataset.edge.split(" ")) addTo(edges, way, edge);
}
const regionButtons = all(".region");

function addTo(table, key, value) {
  if (!table.has(key)) table.set(key, []);
  table.get(key).push(value);
}

const placesOf = (element) => places.get(element) || [];

function show() {
  hovered = null;
  document.body.classList.remove("hovering");
  const isChoice = chosen.region !== null || chosen.element !== null;
  document.body.classList.toggle("has-choice", isChoice && !chosen.isFirst);
  light(chosen);
  describe(reasonToShow(chosen));
  remember();
}

// Lights in all places what this choice is about.
function light({ region, element, step }) {
  const why = step ? null : reasonToShow({ region, element });
  const walk = step ? stepWalk(step) : why ? why.walk : [];
  showElements(region, element, new Set(walk));
  showRegions(region, element);
  showLines(region);
  showWalk(walk);
  for (const item of all(".step")) item.classList.toggle("on", item === step);
}

// Shows what a click would fix, or again what is chosen.
function hover(next) {
  if (JSON.stringify(next) === JSON.stringify(hovered) && next?.step === hovered?.step) return;
  hovered = next;
  document.body.classList.toggle("hovering", next !== null);
  light(next ? { ...chosen, step: null, ...next } : chosen);
}

// Why the region holds the element, where it doesn't hold it from the start.
function reasonToShow({ region, element }) {
  if (region === null || element === null || !holds(region, element)) return null;
  return setOf("base", region).has(element) ? null : reason(region, element);
}

// The walk of a step of a fault's chain, with the end to which it comes.
function stepWalk(step) {
  const points = step.dataset.walk ? step.dataset.walk.split(",").map(Number) : [];
  return step.dataset.end ? [...points, data.points + Number(step.dataset.end)] : points;
}

// The marks that elements have now, and those elements that have one.
let marks = { held: new Set(), base: new Set(), walked: new Set(), picked: null, all: new Set() };

function showElements(region, picked, walked) {
  const held = region === null ? new Set() : setOf("holds", region);
  const base = region === null ? new Set() : setOf("base", region);
  const before = marks.all;
  marks = { held, base, walked, picked, all: new Set([...held, ...walked]) };
  if (picked !== null) marks.all.add(picked);
  for (const element of new Set([...before, ...marks.all])) {
    for (const place of placesOf(element)) mark(place, element);
  }
  if (data.large) showFrames();
}

// Gives a place the marks of its element.
function mark(place, element) {
  place.classList.toggle("held", marks.held.has(element));
  place.classList.toggle("base", marks.base.has(element));
  place.classList.toggle("picked", element === marks.picked);
  place.classList.toggle("walked", marks.walked.has(element));
}

function showRegions(chosenOne, element) {
  for (const button of regionButtons) {
    const region = Number(button.dataset.r);
    const isOfBody = region >= data.universals;
    button.setAttribute("aria-pressed", String(region === chosenOne));
    button.classList.toggle("holds", element !== null && isOfBody && holds(region, element));
  }
  for (const knot of all(".knot")) {
    const region = Number(knot.dataset.r);
    knot.classList.toggle("on", region === chosenOne);
    knot.classList.toggle("holds", element !== null && region >= data.universals && holds(region, element));
  }
}

function showLines(region) {
  const origin = region === null ? null : `line-${data.regions[region].line}`;
  for (const line of all("#source .line")) {
    line.classList.toggle("lit", line.querySelector(".strip i:is(.held, .base)") !== null);
    line.classList.toggle("here", line.querySelector(".strip i.picked") !== null);
    line.classList.toggle("source-of", line.id === origin);
  }
}

function showWalk(walk) {
  for (const edge of all("[data-edge].walked")) edge.classList.remove("walked");
  for (let at = 1; at < walk.length; at++) {
    const way = `${walk[at - 1]}-${walk[at]}`;
    if (data.large) drawWay(way);
    for (const edge of edges.get(way) || []) edge.classList.add("walked");
  }
}
