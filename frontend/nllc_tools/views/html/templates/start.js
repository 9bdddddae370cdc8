// Tabs, filter, theme and address; what is clicked; the start.

function setTab(name) {
  for (const tab of all("[role=tab]")) {
    const isChosen = tab.id === `tab-${name}`;
    tab.setAttribute("aria-selected", String(isChosen));
    tab.tabIndex = isChosen ? 0 : -1;
  }
  byId("source").hidden = name !== "source";
  byId("points").hidden = name !== "points";
}

function filterRegions() {
  const wanted = byId("filter").value.trim().toLowerCase();
  for (const button of regionButtons) {
    button.parentElement.hidden = !button.textContent.toLowerCase().includes(wanted);
  }
  const first = regionButtons.find((button) => !button.parentElement.hidden);
  byId("no-region").hidden = first !== undefined;
  rove(regionButtons, first);
}

const themes = ["system", "light", "dark"];

function nextTheme() {
  const now = document.documentElement.dataset.theme || "system";
  const next = themes[(themes.indexOf(now) + 1) % themes.length];
  if (next === "system") delete document.documentElement.dataset.theme;
  else document.documentElement.dataset.theme = next;
  byId("theme").querySelector("span").textContent = next;
}

let isRecalling = false;

// Writes what is chosen into the address, so that a link can point at it, and Back leads to what was chosen before.
// While a key is held down, what it passes by is left out.
function remember() {
  if (isRecalling || isHeld) return;
  const words = new URLSearchParams();
  if (chosen.region !== null) words.set("region", data.regions[chosen.region].name);
  if (chosen.element !== null) words.set("point", elementName(chosen.element));
  if (chosen.step) words.set("step", String(all(".step").indexOf(chosen.step)));
  const address = String(words) ? `#${words}` : "";
  if (address === location.hash) return;
  try {
    history.pushState(null, "", address || location.href.split("#")[0]);
  } catch {
    // Some browsers allow it for no page from a file. The address then stays as it is.
  }
}

// Chooses what an address says; without any, what the page begins with.
function recall(address) {
  isRecalling = true;
  Object.assign(chosen, { region: null, element: null, step: null });
  if (address.length > 1) chooseBy(new URLSearchParams(address.slice(1)));
  else begin();
  isRecalling = false;
}

// At first the first step of a fault is lit, or the region of a loan, and the source is at the lines with labels.
function begin() {
  const step = data.start.step === undefined ? null : all(".step")[data.start.step];
  const region = step ? Number(step.dataset.r) : data.start.region ?? null;
  Object.assign(chosen, { step, region, element: null, isFirst: region !== null });
  show();
  if (region !== null) reveal(regionButtons.find((one) => Number(one.dataset.r) === region));
  revealLabels();
}

// Scrolls the source to its labels: to as many as fit around the first line at which something is wrong.
function revealLabels() {
  const pane = byId("source");
  const lines = all(".line", pane).filter((line) => line.querySelector(".label"));
  if (!lines.length || !isThere(pane)) return;
  const boxes = lines.map((line) => line.getBoundingClientRect());
  let first = Math.max(0, lines.findIndex((line) => line.querySelector(".label:is(.against, .rustc)")));
  let last = first;
  const fits = (from, to) => boxes[to].bottom - boxes[from].top <= pane.clientHeight - 16;
  while (first > 0 && fits(first - 1, last)) first -= 1;
  while (last + 1 < boxes.length && fits(first, last + 1)) last += 1;
  const top = pane.getBoundingClientRect().top;
  if (boxes[last].bottom > top + pane.clientHeight) pane.scrollTop = boxes[first].top - top - Math.min(66, pane.clientHeight / 4);
}

function chooseBy(words) {
  show();
  const step = all(".step")[Number(words.get("step") ?? -1)];
  const region = data.regions.findIndex(({ name }) => name === words.get("region"));
  const count = data.points + data.universals;
  const element = Array.from({ length: count }, (_, one) => one).find((one) => elementName(one) === words.get("point"));
  if (step) {
    step.closest(".fault").open = true;
    chooseStep(step);
    return;
  }
  if (words.has("line")) showLine(words.get("line"));
  if (region >= 0) chooseRegion(region);
  if (element !== undefined) chooseElement(element);
}

// What is clicked: the selector, and what to do with the node that it fits.
const clicks = [
  [".cell, .point, .end", (node) => chooseElement(Number(node.dataset.p), node)],
  [".region", (node) => chooseRegion(Number(node.dataset.r))],
  [".show", (node) => chooseStep(node.closest(".step"))],
  [".row", (node) => chooseElement(Number(node.querySelector(".point").dataset.p), node)],
  [".words", (node) => chooseElement(Number(node.dataset.row), node)],
  [".stub", (node) => chooseElement(Number(node.dataset.go))],
  ["[role=tab]", (node) => setTab(node.id.slice(4))],
  ["#theme", nextTheme],
  ["#clear", clear],
  ["#save", saveGraph],
  ["#help-button", () => byId("help").showModal()],
  ["#view-statements", () => setView("statements")],
  ["#view-folded", () => setView("folded")],
  ["#view-outlives", () => setView("outlives")],
  [".knot", (node) => chooseRegion(Number(node.dataset.r))],
  ["#zoom-in", () => zoomBy(1.25)],
  ["#zoom-out", () => zoomBy(0.8)],
  ["#zoom-fit", fit],
  ["a[data-line]", (node, event) => {
    event.preventDefault();
    showLine(node.dataset.line);
  }],
];

document.addEventListener("click", (event) => {
  for (const [selector, act] of clicks) {
    const node = event.target.closest(selector);
    if (node) {
      act(node, event);
      return;
    }
  }
});

// What a click on the node would choose, by the selector that it fits.
const hovers = [
  [".cell, .point, .end", (node) => ({ element: Number(node.dataset.p) })],
  [".region, .chip[data-r], .knot", (node) => ({ region: Number(node.dataset.r) })],
  [".step[data-walk]", (step) => ({ step, region: Number(step.dataset.r), element: null })],
];

function hoverAt(event) {
  for (const [selector, toChoose] of hovers) {
    const node = event.target.closest(selector);
    if (node) return toChoose(node);
  }
  return null;
}

let waiting = 0;
document.addEventListener("pointerover", (event) => {
  if (event.pointerType !== "mouse") return;
  cancelAnimationFrame(waiting);
  waiting = requestAnimationFrame(() => hover(hoverAt(event)));
});
document.addEventListener("pointerleave", () => hover(null));

byId("graph").addEventListener("wheel", (event) => {
  if (!event.ctrlKey) return;
  event.preventDefault();
  zoomBy(event.deltaY < 0 ? 1.15 : 1 / 1.15);
}, { passive: false });

byId("filter").addEventListener("input", filterRegions);
if (data.large) {
  byId("graph").addEventListener("scroll", () => requestAnimationFrame(fillInSight));
  fillBlock(document.querySelector(".block[open]"));
}

setTab(document.querySelector("[role=tab][aria-selected=true]").id.slice(4));
byId("view-statements").hidden = !document.querySelector(".graph.statements");
setView(document.body.dataset.view);
for (const list of [regionButtons, all("#points .point"), all(".end")]) rove(list, list[0]);
for (const list of all("#graph svg, #source .rows")) rove([], list.querySelector(".cell, .point"));
all(".block > summary").forEach((summary, at) => { summary.tabIndex = at ? -1 : 0; });
recall(location.hash);
window.addEventListener("popstate", () => recall(location.hash));
