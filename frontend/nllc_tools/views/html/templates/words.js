// The words for what is chosen.

function describe(why) {
  const { region, element } = chosen;
  const parts = [];
  if (region !== null && element !== null) parts.push(bothWords(region, element, why));
  if (region !== null) parts.push(regionWords(region));
  if (element !== null) parts.push(elementWords(element));
  if (!parts.length) {
    const hint = "Choose a region to light its points, or a point to see which regions hold it.";
    parts.push(make("p", "hint", hint));
  }
  byId("chosen").replaceChildren(...parts);
}

// The region: what it is, its value, and the constraints in which it stands.
function regionWords(region) {
  const its = data.regions[region];
  const head = make("h2", "", code(regionName(region)), make("span", "what", its.what));
  const part = make("section", "", head);
  const points = its.holds.filter(([first]) => isPoint(first))
    .map(([first, last]) => [first, Math.min(last, data.points - 1)]);
  const ends = [...setOf("holds", region)].filter((element) => !isPoint(element));
  part.append(line("holds", ...(points.length ? spanNodes(points) : [numbers("no point")])));
  if (ends.length) part.append(line("and", ...ends.map(elementChip)));
  if (its.base.length && region >= data.universals) {
    part.append(line("live at", ...spanNodes(its.base)));
  }
  part.append(...constraintsOf(region, "must outlive", 0), ...constraintsOf(region, "outlived by", 1));
  return part;
}

// The region's constraints, in which it is the larger (0) or the smaller one (1), by the other region.
function constraintsOf(region, label, own) {
  const byOther = new Map();
  for (const constraint of data.constraints) {
    if (constraint[own] === region) addTo(byOther, constraint[1 - own], constraint[2]);
  }
  const pieces = [...byOther].map(([other, points]) => {
    const isEverywhere = points.includes(ALL) || points.length === data.points;
    const where = isEverywhere ? "everywhere " : `from ${spanWords(runs(points))} on `;
    return make("span", "", regionChip(other), make("span", "label", where));
  });
  return pieces.length ? [line(label, ...some(pieces, 12))] : [];
}

function elementWords(element) {
  return isPoint(element) ? pointWords(element) : endWords(element);
}

// The point: its statement, its neighbours, the regions that hold it, what is asked from there on.
function pointWords(point) {
  const where = data.lines[point] === null ? "" : `line ${data.lines[point]}`;
  const part = make("section", "", make("h2", "", `Point ${pointName(point)}`, make("span", "what", where)));
  if (data.texts[point]) part.append(make("p", "", code(data.texts[point])));
  part.append(neighbourWords(point));
  part.append(holders(holdersOf(point).filter((region) => region >= data.universals)));
  part.append(make("p", "label", data.universals === 1
    ? "and by 'static, which holds every point"
    : `and by the ${data.universals} regions of the signature, which hold every point`));
  const asks = data.constraints.filter(([, , at]) => at === point).map(([sup, sub]) =>
    make("span", "", regionChip(sup), make("span", "label", "must outlive "), regionChip(sub)));
  if (asks.length) part.append(line("from here on", ...some(asks, 12)));
  return part;
}

function neighbourWords(point) {
  const words = make("p", "");
  const label = (text) => make("span", "label", text);
  if (before[point].length) {
    words.append(label("from "), ...some(before[point].map(elementChip), 12));
  }
  if (data.next[point].length) {
    words.append(label(" on to "), ...some(data.next[point].map(elementChip), 12));
  }
  if (returns.has(point)) words.append(label(" returns"));
  return words;
}

function endWords(element) {
  const head = make("h2", "", code(elementName(element)), make("span", "what", "after the return"));
  return make("section", "", head, holders(holdersOf(element)));
}

function holdersOf(element) {
  return data.regions.map((_, region) => region).filter((region) => holds(region, element));
}

function holders(regions) {
  const count = regions.length === 0 ? "no region of the body"
    : regions.length === 1 ? "1 region" : `${regions.length} regions`;
  return line(`held by ${count}`, ...some(regions.map(regionChip), 80));
}

// Whether the region holds the element, and why.
function bothWords(region, element, why) {
  const name = code(regionName(region));
  const it = isPoint(element) ? `point ${pointName(element)}` : code(elementName(element));
  const isOwn = isPoint(element) || element === data.points + region;
  const words = [];
  if (!holds(region, element)) words.push(name, " doesn’t hold ", it, ".");
  else if (setOf("base", region).has(element)) words.push(name, " is live at ", it, ".");
  else if (region < data.universals && isOwn) {
    words.push(name, " holds ", it, ", since the signature names it.");
  } else if (why) {
    words.push(name, " holds ", it, ...(why.at === ALL
      ? [": at all points it must hold what ", code(regionName(why.sub)), " holds."]
      : [`: from point ${pointName(why.at)} on it must hold what is reached inside `, code(regionName(why.sub)),
        ...wayWords(why)]));
  }
  return make("section", "both", make("p", "", ...words));
}

function wayWords({ sub, walk }) {
  if (walk.length === 1) return [", and ", regionChip(sub), " holds that point."];
  return [", and inside ", regionChip(sub), ` a walk leads there: ${walkWords(walk)}.`];
}

function walkWords(walk) {
  const words = walk.map(elementName);
  const short = words.length > 9 ? [...words.slice(0, 4), "…", ...words.slice(-4)] : words;
  return short.join(" → ");
}

// Runs of ascending numbers as pairs of first and last, and their words.
function runs(points) {
  const spans = [];
  for (const point of [...points].sort((a, b) => a - b)) {
    const last = spans[spans.length - 1];
    if (last && last[1] >= point - 1) last[1] = point;
    else spans.push([point, point]);
  }
  return spans;
}

function spanWords(spans) {
  return spans.map(([first, last]) =>
    (first === last ? pointName(first) : `${pointName(first)}–${pointName(last)}`)).join(", ");
}

// The same as nodes: of many runs the first, and a button for the rest.
function spanNodes(spans) {
  const nodes = spans.map((span, at) => numbers(spanWords([span]) + (at < spans.length - 1 ? ", " : "")));
  return some(nodes, 24);
}

// Nodes. Text goes in as text, never as markup.
function make(tag, className, ...children) {
  const node = document.createElement(tag);
  if (className) node.className = className;
  node.append(...children);
  return node;
}

const code = (words) => make("code", "", words);
const numbers = (words) => make("span", "numbers", words);
const line = (label, ...children) => make("p", "", make("span", "label", `${label} `), ...children);

function chip(words, isChosen, act) {
  const button = make("button", isChosen ? "chip on" : "chip", words);
  button.type = "button";
  button.addEventListener("click", act);
  return button;
}

function regionChip(region) {
  const isChosen = region === chosen.region;
  const button = chip(regionName(region), isChosen, () => chooseRegion(region));
  button.title = data.regions[region].what;
  button.dataset.r = region;
  return button;
}

function elementChip(element) {
  return chip(elementName(element), element === chosen.element, () => chooseElement(element));
}

// The first of the nodes, and a button that puts the others in its place.
function some(nodes, most) {
  if (nodes.length <= most + 1) return nodes;
  const rest = nodes.slice(most);
  const more = chip(`${rest.length} more`, false, () => more.replaceWith(...rest));
  return [...nodes.slice(0, most), more];
}
