// Choosing, and bringing what was chosen into sight.

function chooseRegion(region) {
  chosen.region = chosen.region === region && !chosen.isFirst ? null : region;
  chosen.isFirst = false;
  chosen.step = null;
  show();
  if (chosen.region === null) return;
  const button = regionButtons.find((one) => Number(one.dataset.r) === region);
  rove(regionButtons, button);
  reveal(button);
  const points = [...setOf("holds", region)].filter(isPoint);
  if (region < data.universals || !points.length) return;
  makePlaces(points[0]);
  if (data.large) openLine(points[0]);
  revealAny(points);
}

// `from` is the place that was clicked: its own pane stays as it is.
function chooseElement(element, from) {
  makePlaces(element);
  chosen.element = chosen.element === element ? null : element;
  chosen.isFirst = false;
  chosen.step = null;
  show();
  if (chosen.element === null) return;
  openLine(element);
  const pane = from && from.closest(".scroll, .after");
  for (const place of placesOf(element)) {
    if (place.closest(".scroll, .after") !== pane) reveal(place);
    if (place.matches(".cell, .point, .end")) rove(group(place), place);
  }
}

function chooseStep(step) {
  const isNew = chosen.step !== step || chosen.isFirst;
  Object.assign(chosen, { step: null, region: null, element: null, isFirst: false });
  if (isNew) Object.assign(chosen, { step, region: Number(step.dataset.r) });
  show();
  if (!isNew) return;
  reveal(step);
  reveal(regionButtons.find((one) => Number(one.dataset.r) === chosen.region));
  const [first] = stepWalk(step);
  makePlaces(first);
  openLine(first);
  placesOf(first).forEach((place) => reveal(place));
}

function clear() {
  Object.assign(chosen, { region: null, element: null, step: null, isFirst: false });
  show();
}

// The region before or behind the chosen one.
function stepRegion(by) {
  const shown = regionButtons.filter((button) => !button.parentElement.hidden);
  const at = shown.findIndex((button) => Number(button.dataset.r) === chosen.region);
  const to = shown[at < 0 ? (by > 0 ? 0 : shown.length - 1) : at + by];
  if (to) chooseRegion(Number(to.dataset.r));
}

// The first point of the next run of points that the chosen region holds, or of the run before.
function stepRun(by) {
  if (chosen.region === null) return;
  const firsts = data.regions[chosen.region].holds.map(([first]) => first);
  const now = chosen.element ?? -1;
  const to = by > 0
    ? firsts.find((first) => first > now)
    : firsts.reverse().find((first) => first < now);
  if (to !== undefined) chooseElement(to);
}

// Opens the line of the source and the block at which the point stands.
function openLine(element) {
  for (const place of placesOf(element)) {
    const part = place.closest("#source details, #points details");
    if (part) part.open = true;
  }
}

function showLine(number) {
  const line = byId(`line-${number}`);
  if (!line) return;
  setTab("source");
  line.open = true;
  line.scrollIntoView({ block: "center" });
}

const isThere = (place) => place.getClientRects().length > 0;

// Scrolls the place's pane, and nothing else, so that the place is in sight; in the graph its whole box, where
// there is room. A page that is longer than its window stays where its reader has it.
function reveal(place, block = "nearest") {
  if (!place || !isThere(place)) return;
  const pane = place.closest(".scroll");
  if (!pane) return;
  const frame = place.closest(".box")?.querySelector(".frame");
  if (frame) scrollTo(pane, frame, "nearest", 14);
  scrollTo(pane, place, block, place.matches(".cell") ? 14 : 60);
}

// Scrolls the pane to the place, with this much room round it where the pane has it.
function scrollTo(pane, place, block, room) {
  const [inner, outer] = [place.getBoundingClientRect(), pane.getBoundingClientRect()];
  const down = shift(inner.top - outer.top, inner.height, pane.clientHeight, block, room);
  const across = shift(inner.left - outer.left, inner.width, pane.clientWidth, "nearest", 14);
  pane.scrollTop += down;
  pane.scrollLeft += across;
}

// By how much to scroll along one axis what begins at `from` and is so long.
function shift(from, size, length, block, room) {
  if (block === "center") return from + size / 2 - length / 2;
  const spare = Math.max(0, Math.min(room, (length - size) / 2));
  if (from < spare) return from - spare;
  const over = from + size + spare - length;
  return over > 0 ? Math.min(over, from - spare) : 0;
}

// Scrolls each pane to the first of the points, where none of them is in sight.
function revealAny(points) {
  for (const pane of all(".scroll")) {
    const here = points.flatMap(placesOf).filter((place) => pane.contains(place) && isThere(place));
    if (here.length && !here.some((place) => isInside(place, pane))) reveal(here[0], "center");
  }
}

function isInside(place, pane) {
  const [inner, outer] = [place.getBoundingClientRect(), pane.getBoundingClientRect()];
  return inner.top >= outer.top && inner.bottom <= outer.bottom
    && inner.left >= outer.left && inner.right <= outer.right;
}
