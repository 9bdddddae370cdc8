// The graph's views, each with a scale of its own, and the graph as a file.

const LEGIBLE = 0.92;   // the least scale at which all letters are 10 pixels high
const graphs = {};
for (const name of ["statements", "folded", "outlives"]) {
  const svg = document.querySelector(`svg.graph.${name}`);
  if (svg) graphs[name] = { svg, width: svg.width.baseVal.value, height: svg.height.baseVal.value, scale: 0 };
}
let scale = 1;

const shownGraph = () => graphs[document.body.dataset.view];

// Draws the shown graph at this scale; what is in the middle of the pane stays there.
function zoomTo(next) {
  const graph = shownGraph();
  if (!graph) return;
  const pane = byId("graph");
  const [across, down] = [pane.clientWidth / 2, pane.clientHeight / 2];
  const middle = [(pane.scrollLeft + across) / scale, (pane.scrollTop + down) / scale];
  scale = graph.scale = Math.min(4, Math.max(0.05, next));
  graph.svg.setAttribute("width", graph.width * scale);
  graph.svg.setAttribute("height", graph.height * scale);
  pane.style.setProperty("--scale", scale);
  pane.classList.toggle("overview", scale < LEGIBLE);
  pane.classList.toggle("small", scale < 0.45);
  pane.scrollLeft = middle[0] * scale - across;
  pane.scrollTop = middle[1] * scale - down;
  fillInSight();
}

const zoomBy = (factor) => zoomTo(scale * factor);

const widthRatio = (graph) => (byId("graph").clientWidth - 4) / graph.width;

function fit() {
  const graph = shownGraph();
  if (graph) zoomTo(Math.min(1.5, widthRatio(graph)));
}

function setView(view) {
  if (!document.querySelector(`.graph.${view}`)) return;
  document.body.dataset.view = view;
  for (const name of ["statements", "folded", "outlives"]) {
    byId(`view-${name}`).setAttribute("aria-pressed", String(name === view));
  }
  const graph = graphs[view];
  byId("save").hidden = !graph;
  if (graph) {
    if (graph.scale) zoomTo(graph.scale);
    else firstView(graph);
    reveal(graph.svg.querySelector(".cell.picked"));
  }
  fillInSight();
}

const otherView = () => setView(document.body.dataset.view === "folded" ? "statements" : "folded");

// At first: the whole width, a little larger where all of it fits; else letters that can be read, from the first box on.
function firstView(graph) {
  const pane = byId("graph");
  const whole = Math.min(widthRatio(graph), (pane.clientHeight - 4) / graph.height);
  scale = 1;
  zoomTo(Math.min(1.2, Math.max(LEGIBLE, whole, Math.min(1, widthRatio(graph)))));
  pane.scrollTop = 0;
  pane.scrollLeft = 0;
  if (widthRatio(graph) >= scale) return;
  const first = firstBox() || graph.svg.querySelector(".box .frame")?.getBoundingClientRect();
  if (!first) return;
  const left = first.x - pane.getBoundingClientRect().x;
  if (left + first.width <= pane.clientWidth) return;
  pane.scrollLeft = Math.min(left - 8, left + first.width / 2 - pane.clientWidth / 2 + 4);
}

// Of a graph of many points the boxes are made where they are looked at.
function firstBox() {
  if (!data.large || document.body.dataset.view !== "folded") return null;
  const pane = byId("graph").getBoundingClientRect();
  const [x, , width] = data.large.boxes[0];
  return { x: pane.x + x * scale, width: width * scale };
}

// What a file has to have of the page's style.
const DRAWN = ["fill", "stroke", "stroke-width", "stroke-dasharray", "opacity", "font-family", "font-size",
  "font-weight", "text-anchor", "paint-order", "display", "vector-effect"];

// The shown graph as a text of its own: what the page's style says is written to each node.
function svgText() {
  const { svg, width, height } = shownGraph();
  if (data.large && document.body.dataset.view === "folded") data.large.boxes.forEach((_, number) => fillBox(number));
  const copy = svg.cloneNode(true);
  const originals = [...svg.querySelectorAll("*")];
  [...copy.querySelectorAll("*")].forEach((node, at) => {
    const style = getComputedStyle(originals[at]);
    node.setAttribute("style", DRAWN.map((name) => `${name}:${style.getPropertyValue(name)}`).join(";"));
    for (const name of ["class", "role", "tabindex", "data-p", "data-row", "data-edge", "data-go", "data-r"]) {
      node.removeAttribute(name);
    }
  });
  copy.removeAttribute("class");
  copy.setAttribute("width", width);
  copy.setAttribute("height", height);
  copy.style.background = getComputedStyle(byId("graph")).backgroundColor;
  return new XMLSerializer().serializeToString(copy);
}

function saveGraph() {
  const before = scale;
  if (before < LEGIBLE) zoomTo(1);    // what is drawn small lacks its letters
  const address = URL.createObjectURL(new Blob([svgText()], { type: "image/svg+xml" }));
  if (before < LEGIBLE) zoomTo(before);
  const link = make("a", "");
  link.href = address;
  link.download = `${document.querySelector("h1").textContent.replace(/\W+/g, "-")}.svg`;
  link.click();
  setTimeout(() => URL.revokeObjectURL(address), 10000);
}

// Columns are dragged wider and narrower, or moved by arrows.
function setColumn(divider, width) {
  const name = divider.id === "lists-divider" ? "--lists" : "--graph";
  const main = document.querySelector("main");
  const most = main.clientWidth - 480;
  const pixels = Math.round(Math.max(180, Math.min(most, width)));
  main.style.setProperty(name, `${pixels}px`);
  divider.setAttribute("aria-valuenow", String(pixels));
  fillInSight();
}

const columnOf = (divider) => (divider.id === "lists-divider" ? document.querySelector(".lists") : byId("graph-pane"));

// By how much a column grows where its divider goes so far to the right.
const growth = (divider, across) => (divider.id === "lists-divider" ? across : -across);

for (const divider of all(".divider")) {
  divider.addEventListener("pointerdown", (event) => {
    divider.setPointerCapture(event.pointerId);
    const [from, width] = [event.clientX, columnOf(divider).getBoundingClientRect().width];
    const drag = (moved) => setColumn(divider, width + growth(divider, moved.clientX - from));
    divider.addEventListener("pointermove", drag);
    divider.addEventListener("lostpointercapture", () => divider.removeEventListener("pointermove", drag), { once: true });
    event.preventDefault();
  });
  divider.addEventListener("keydown", (event) => {
    const across = { ArrowLeft: -24, ArrowRight: 24 }[event.key];
    if (!across) return;
    setColumn(divider, columnOf(divider).getBoundingClientRect().width + growth(divider, across));
    event.preventDefault();
  });
}
