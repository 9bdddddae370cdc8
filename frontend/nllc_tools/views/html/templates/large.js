// Pages of many points: rows and cells are made where they are looked at, so that the page opens at once.

const SVG = "http://www.w3.org/2000/svg";
const boxOf = new Map();    // a point to the number of its box
const blockOf = new Map();  // and to that of its block
if (data.large) {
  data.large.boxes.forEach((box, number) => box[6].forEach((point) => boxOf.set(point, number)));
  data.blocks.forEach((rows, number) => rows.flat().forEach((point) => blockOf.set(point, number)));
}

// Makes what stands for the element, where that isn't there yet.
function makePlaces(element) {
  if (!data.large || !isPoint(element)) return;
  fillBox(boxOf.get(element));
  fillBlock(document.querySelector(`[data-block="${blockOf.get(element)}"]`));
  const line = byId(`line-${data.lines[element]}`);
  if (line) fillLine(line);
}

// Takes new nodes in: they are found by their elements, and are marked like others.
function takeIn(part) {
  for (const place of all("[data-p]", part)) {
    const element = Number(place.dataset.p);
    addTo(places, element, place);
    mark(place, element);
  }
}

function rowNode(points, withLine) {
  const buttons = points.map((point) => {
    const button = make("button", "point", pointName(point));
    button.type = "button";
    button.dataset.p = point;
    button.tabIndex = -1;
    return button;
  });
  const statements = [...new Set(points.map((point) => data.texts[point]))];
  const row = make("div", "row", make("span", "numbers", ...buttons), code(statements.join(", ")));
  const isReturn = points.some((point) => returns.has(point));
  if (isReturn && !/^(return|resume)$/.test(data.texts[points[0]])) {
    row.append(make("span", "returns", "returns"));
  }
  const number = data.lines[points[0]];
  if (withLine && number !== null) row.append(make("span", "at", `line ${number}`));
  return row;
}

function fillBlock(block) {
  if (!block || block.children.length > 1) return;
  block.append(...data.blocks[Number(block.dataset.block)].map((points) => rowNode(points, true)));
  takeIn(block);
}

function fillLine(line) {
  const rows = line.querySelector(".rows");
  if (!rows || rows.children.length) return;
  const number = Number(line.id.slice(5));
  const its = data.blocks.flat().filter((points) => data.lines[points[0]] === number);
  rows.append(...its.map((points) => rowNode(points, false)));
  takeIn(rows);
}

function draw(tag, attributes, ...children) {
  const node = document.createElementNS(SVG, tag);
  for (const [name, value] of Object.entries(attributes)) node.setAttribute(name, value);
  node.append(...children);
  return node;
}

const filled = new Set();

function fillBox(number) {
  if (filled.has(number)) return;
  filled.add(number);
  const { cell, pitch, top, pad, stubs } = data.large;
  const [x, y, width, height, wide, title, points] = data.large.boxes[number];
  const box = draw("g", { class: "box", transform: `translate(${x} ${y})` },
    draw("rect", { class: "frame", width, height, rx: 5 }),
    draw("text", { class: "title", x: pad, y: 13 }, ...titleNodes(title)));
  points.forEach((point, at) => {
    const words = `point ${pointName(point)}` + (data.texts[point] ? `: ${data.texts[point]}` : "");
    const [left, down] = [pad + (at % wide) * pitch, top + Math.floor(at / wide) * pitch];
    const node = draw("g", { class: "cell", "data-p": point, role: "button", tabindex: -1 },
      draw("title", {}, words), draw("rect", { x: left, y: down, width: cell, height: cell, rx: 2.5 }));
    if (returns.has(point)) node.append(draw("path", { class: "mark", d: `M${left + 3} ${down + 3.5}h5l-2.5 4.5z` }));
    box.append(node);
  });
  box.append(...stubNodes(points, stubs, width, height));
  document.querySelector(".graph.many .inside").append(box);
  takeIn(box);
}

// The names of a box's blocks, and its points.
function titleNodes([blocks, points]) {
  return [draw("tspan", { class: "block" }, blocks), draw("tspan", { class: "points" }, ` ${points}`)];
}

// An arrow for each point outside to which several of the box's points lead, the last one lowest.
function stubNodes(points, stubs, width, height) {
  const sources = new Map();
  for (const point of points) for (const target of stubs[point] || []) addTo(sources, target, point);
  const shown = [...sources].slice(0, Math.max(1, Math.floor((height - 4) / 13))).reverse();
  return shown.map(([target, from], at) => {
    const y = height - 9 - 13 * at;
    const node = draw("g", { class: "stub", "data-go": target },
      draw("title", {}, `from ${from.map(pointName).join(", ")} to point ${pointName(target)}, from which the function doesn’t return`),
      draw("path", { d: `M${width} ${y}h10m-3.5 -3.5l3.5 3.5l-3.5 3.5` }),
      draw("text", { x: width + 14, y: y + 3.5 }, pointName(target)));
    for (const point of from) addTo(edges, `${point}-${target}`, node);
    return node;
  });
}

// Draws an edge of its own for a walk, once.
function drawWay(way) {
  if (edges.has(way) || !data.large.edges[way]) return;
  const [line, head] = data.large.edges[way];
  const node = draw("g", { class: "edge", "data-edge": way },
    draw("path", { class: "way", d: line }), draw("path", { class: "head", d: head }));
  document.querySelector(".graph.many .edges").append(node);
  addTo(edges, way, node);
}

// Fills the boxes that are in sight, where they are large enough for cells.
function fillInSight() {
  const pane = byId("graph");
  if (!data.large || pane.classList.contains("small") || document.body.dataset.view === "outlives") return;
  const [left, top] = [pane.scrollLeft / scale, pane.scrollTop / scale];
  const [right, bottom] = [left + pane.clientWidth / scale, top + pane.clientHeight / scale];
  data.large.boxes.forEach(([x, y, width, height], number) => {
    if (x < right && x + width > left && y < bottom && y + height > top) fillBox(number);
  });
}

// Tints the frames of the boxes that have a point which is held; their cells may not be there.
function showFrames() {
  const held = new Set([...marks.held].filter(isPoint).map((point) => boxOf.get(point)));
  const frames = [...held].map((number) => {
    const [x, y, width, height] = data.large.boxes[number];
    return `M${x} ${y}h${width}v${height}h-${width}z`;
  });
  document.querySelector(".graph.many .frame.lit").setAttribute("d", frames.join(""));
}

document.addEventListener("toggle", ({ target }) => {
  if (!data.large || !target.open) return;
  if (target.matches(".block")) fillBlock(target);
  if (target.matches(".line")) fillLine(target);
}, true);
