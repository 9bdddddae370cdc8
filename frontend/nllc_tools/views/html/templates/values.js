"use strict";

// The page's parts are in its HTML already. The script chooses among them: a region lights its points, a
// point lists the regions that hold it, a step of a fault's chain lights its walk. Its files are put one
// behind the other: values, show, words, choose, graph, keys, start.
//
// Here: the values, which are those in `data`, and what is asked of them.

const data = JSON.parse(document.getElementById("data").textContent);

const sets = new Map();

// What the region holds ("holds") or is live at ("base"), as a set.
function setOf(kind, region) {
  const key = kind + region;
  if (!sets.has(key)) {
    const set = new Set();
    for (const [first, last] of data.regions[region][kind]) {
      for (let element = first; element <= last; element++) set.add(element);
    }
    sets.set(key, set);
  }
  return sets.get(key);
}

function holds(region, element) {
  return data.regions[region].holds.some(([first, last]) => first <= element && element <= last);
}

const isPoint = (element) => element < data.points;
const regionName = (region) => `'${data.regions[region].name}`;

// A point's name: its block and place in a MIR text, else its number.
const pointName = (point) => (data.names ? data.names[point] : String(point));

function elementName(element) {
  return isPoint(element) ? pointName(element) : `end(${regionName(element - data.points)})`;
}

const returns = new Set(data.returns);
const before = data.next.map(() => []);
data.next.forEach((following, point) => following.forEach((next) => before[next].push(point)));

// Stands in place of a point where a constraint holds at all points.
const ALL = -1;

// Of the region's constraints one that asks for the element, with a shortest walk; none at all points.
function reason(region, element) {
  const own = data.constraints.filter(([sup]) => sup === region);
  let best = null;
  for (const sub of new Set(own.map(([, sub]) => sub))) {
    if (!holds(sub, element)) continue;
    const onward = waysTo(element, setOf("holds", sub));
    for (const [, other, at] of own) {
      if (other === sub && at === ALL) return { sub, at, walk: [element] };
      const way = other === sub ? onward.get(at) : undefined;
      if (way && (!best || way.length < best.length)) best = { sub, at, length: way.length, onward };
    }
  }
  if (!best) return null;
  const walk = [];
  for (let at = best.at; at !== null; at = best.onward.get(at).next) walk.push(at);
  return { sub: best.sub, at: best.at, walk };
}

// For each point from which a walk inside the set leads to the element: how far, and what comes next.
function waysTo(element, inside) {
  const onward = new Map([[element, { length: 1, next: null }]]);
  const todo = [element];
  for (let at = 0; at < todo.length; at++) {
    const here = todo[at];
    for (const point of isPoint(here) ? before[here] : data.returns) {
      if (inside.has(point) && !onward.has(point)) {
        onward.set(point, { length: onward.get(here).length + 1, next: here });
        todo.push(point);
      }
    }
  }
  return onward;
}
