// One event at a time. Each thing of the page says from which state on it is there, and in which it is gone.

const byId = (id) => document.getElementById(id);
const all = (selector) => [...document.querySelectorAll(selector)];
const events = JSON.parse(byId("data").textContent);
const last = events.length - 1;
const spans = all("[data-from]").map((node) => ({
  node,
  from: Number(node.dataset.from),
  to: node.dataset.to === undefined ? Infinity : Number(node.dataset.to),
  leavesGhost: node.closest("[data-ghosts]") !== null,
}));
const cells = all("[data-since]").map((node) => ({ node, since: Number(node.dataset.since) }));
const numbers = (text) => new Set(text.split(" ").filter(Boolean).map(Number));
const constraints = all(".constraints li").map((node) => ({
  node, asks: numbers(node.dataset.asks), taken: numbers(node.dataset.taken),
}));
let now = 0;

function show(event) {
  now = Math.max(0, Math.min(last, event));
  for (const { node, from, to, leavesGhost } of spans) {
    const isGone = leavesGhost && now === to;
    node.toggleAttribute("hidden", !(from <= now && now < to) && !isGone);
    node.classList.toggle("new", now === from && now > 0);
    node.classList.toggle("gone", isGone);
  }
  for (const { node, since } of cells) {
    node.classList.toggle("held", since <= now);
    node.classList.toggle("new", since === now && now > 0);
  }
  for (const { node, asks, taken } of constraints) {
    node.classList.toggle("asks", asks.has(now));
    node.classList.toggle("asked", taken.has(now));
    node.classList.remove("chosen");
  }
  for (const list of all(".growths")) {
    const isEmpty = ![...list.querySelectorAll(".growth")].some((one) => !one.hidden);
    list.querySelector(".none").hidden = !isEmpty;
  }
  showWho();
  showPlace();
}

// Who does the event, and which lane it changes.
function showWho() {
  const [owner, lane] = events[now];
  for (const node of all(".owner, .lane")) {
    node.classList.toggle("acts", node.id === `owner-${owner}` || node.id === `lane-${lane}`);
  }
}

// Where in the schedule this is.
function showPlace() {
  byId("where").textContent = String(now);
  byId("slider").value = String(now);
  byId("first").disabled = byId("back").disabled = now === 0;
  byId("last").disabled = byId("forward").disabled = now === last;
  for (const row of all("#events a")) {
    const isHere = Number(row.dataset.event) === now;
    row.toggleAttribute("aria-current", isHere);
    if (isHere) intoView(row);
  }
}

// Scrolls the list of events, and nothing else.
function intoView(row) {
  const list = row.closest(".scroll");
  const top = row.getBoundingClientRect().top - list.getBoundingClientRect().top;
  if (top < 0 || top + row.offsetHeight > list.clientHeight) list.scrollTop += top - list.clientHeight / 3;
}

// Goes to an event, and writes it into the address, so that a link can point at it.
function go(event) {
  show(event);
  try {
    history.replaceState(null, "", `#event=${now}`);
  } catch {
    // Some browsers allow it for no page from a file. The address then stays as it is.
  }
}

function recall() {
  const found = /^#event=(\d+)$/.exec(location.hash);
  show(found ? Number(found[1]) : now);
}

const themes = ["system", "light", "dark"];

function nextTheme() {
  const theme = document.documentElement.dataset.theme || "system";
  const next = themes[(themes.indexOf(theme) + 1) % themes.length];
  if (next === "system") delete document.documentElement.dataset.theme;
  else document.documentElement.dataset.theme = next;
  byId("theme").querySelector("span").textContent = next;
}

// Event after event, from the first one where the last one is shown; any other choice stops it.
const PAUSE = 900;  // milliseconds
let timer = null;

function play() {
  if (timer !== null) {
    stop();
    return;
  }
  if (now === last) go(0);
  timer = setInterval(() => {
    go(now + 1);
    if (now === last) stop();
  }, PAUSE);
  showPlaying();
}

function stop() {
  clearInterval(timer);
  timer = null;
  showPlaying();
}

function showPlaying() {
  byId("play").setAttribute("aria-pressed", String(timer !== null));
  byId("play").setAttribute("aria-label", timer === null ? "Play" : "Stop");
}

function choose(event) {
  stop();
  go(event);
}

function pointAt(link, event) {
  event.preventDefault();
  const row = byId(`constraint-${link.dataset.constraint}`);
  row.scrollIntoView({ block: "nearest" });
  for (const node of all(".constraints .chosen")) node.classList.remove("chosen");
  row.classList.add("chosen");
}

const keys = {
  ArrowLeft: () => choose(now - 1),
  ArrowRight: () => choose(now + 1),
  Home: () => choose(0),
  End: () => choose(last),
  " ": play,
  "?": () => byId("help").showModal(),
};

document.addEventListener("keydown", (event) => {
  if (event.altKey || event.ctrlKey || event.metaKey || byId("help").open) return;
  if (event.target.matches("input") && event.key !== "?" && event.key !== " ") return;
  if (event.target.matches("button, a") && event.key === " ") return;
  const act = keys[event.key];
  if (!act) return;
  act();
  event.preventDefault();
});

document.addEventListener("click", (event) => {
  const row = event.target.closest("#events a");
  const link = event.target.closest("a.to");
  if (row) {
    event.preventDefault();
    choose(Number(row.dataset.event));
  } else if (link) pointAt(link, event);
});

byId("first").addEventListener("click", () => choose(0));
byId("back").addEventListener("click", () => choose(now - 1));
byId("play").addEventListener("click", play);
byId("forward").addEventListener("click", () => choose(now + 1));
byId("last").addEventListener("click", () => choose(last));
byId("slider").addEventListener("input", () => choose(Number(byId("slider").value)));
byId("theme").addEventListener("click", nextTheme);
byId("help-button").addEventListener("click", () => byId("help").showModal());
window.addEventListener("hashchange", recall);
recall();
