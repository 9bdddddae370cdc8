// What `drive.py` asks of a page, beside the functions of the page's own script.

const probe = {
  // The nodes that the selector finds, and that are there to be seen.
  nodes: (selector) => [...document.querySelectorAll(selector)]
    .filter((node) => node.getClientRects().length > 0),

  // The elements for which they stand, ascending.
  elements: (selector) => probe.nodes(selector)
    .map((node) => Number(node.dataset.p)).sort((a, b) => a - b),

  // The middle of the first of them, brought into sight, or null.
  middle: (selector) => {
    const [node] = probe.nodes(selector);
    if (!node) return null;
    node.scrollIntoView({ block: "center", inline: "nearest" });
    const box = node.getBoundingClientRect();
    return [box.x + box.width / 2, box.y + box.height / 2];
  },

  // Whether the first of them is inside its pane.
  inSight: (selector) => {
    const [node] = probe.nodes(selector);
    return isInside(node, node.closest(".scroll"));
  },

  openAll: (selector, open) => {
    for (const node of document.querySelectorAll(selector)) node.open = open;
  },

  // Milliseconds for showing what is chosen, the layout included.
  timeOfShow: () => {
    const began = performance.now();
    show();
    document.body.getBoundingClientRect();
    return performance.now() - began;
  },

  // The names of the regions that the page lists as holding the chosen point.
  holders: () => {
    for (const chip of probe.nodes(".chosen .chip")) {
      if (/ more$/.test(chip.textContent)) chip.click();
    }
    return probe.nodes(".chosen p").filter((node) => node.textContent.startsWith("held by"))
      .flatMap((node) => [...node.querySelectorAll(".chip")].map((chip) => chip.textContent));
  },

  // Puts the focus before everything, as after loading.
  focusFirst: () => {
    const head = document.querySelector("h1");
    head.tabIndex = -1;
    head.focus();
    head.removeAttribute("tabindex");
  },

  // In which part of the page the focus is, and whether it can be seen.
  focus: () => {
    const node = document.activeElement;
    const style = getComputedStyle(node.matches(".cell") ? node.querySelector("rect") : node);
    const part = node.closest("#filter, .lists, #source, #points, [role=tablist], #graph, .after, .tools");
    return {
      part: part ? part.id || part.className : "",
      name: node.id || node.getAttribute("class"),
      isVisible: style.outlineStyle !== "none" && parseFloat(style.outlineWidth) >= 2,
      isNowhere: node === document.body,
    };
  },

  // How many boxes of the graph are narrower than their words.
  narrowBoxes: () => probe.nodes(".graph.statements .box").filter((box) => {
    const right = box.querySelector(".frame").getBoundingClientRect().right + 1;
    return [...box.querySelectorAll(".words, .title")]
      .some((words) => words.getBoundingClientRect().right > right);
  }).length,

  overflow: () => document.documentElement.scrollWidth - document.documentElement.clientWidth,

  // The text nodes that can be read in the window now, each with the element that it stands in.
  readable: () => {
    const walker = document.createTreeWalker(document.body, NodeFilter.SHOW_TEXT);
    const found = new Set();
    for (let text = walker.nextNode(); text; text = walker.nextNode()) {
      const node = text.parentElement;
      if (found.has(node) || !text.data.trim()) continue;
      const { left, top, right, bottom } = node.getBoundingClientRect();
      const isInWindow = right > 0 && bottom > 0 && left < innerWidth && top < innerHeight && right - left > 1;
      if (isInWindow && !node.matches("script, style, title, noscript, option") && isSeen(node)) found.add(node);
    }
    return [...found];
  },

  // The least size of letters there, in pixels of the screen, and what is written with them.
  smallest: () => probe.readable().map((node) => [sizeOf(node), node.textContent.slice(0, 40)])
    .sort(([a], [b]) => a - b)[0],

  // Texts whose contrast with what is behind them is less.
  faint: (least) => probe.readable().map((node) => [ratio(inkOf(node), groundOf(node)), nameOf(node)])
    .filter(([found]) => found < least).map(([found, name]) => `${name}: ${found.toFixed(2)}`),

  // Parts of the page that lie over one another.
  overlapping: () => {
    const parts = probe.nodes("header, #faults, #text-pane, #regions-part, #regions, #graph-pane, .owner, .lane, .card, footer")
      .filter((one) => one.textContent.trim()).map((one) => [one, one.getBoundingClientRect()]);
    return parts.flatMap(([a, boxA]) => parts.filter(([b, boxB]) => a !== b && !a.contains(b) && !b.contains(a)
      && boxA.top < boxB.bottom - 1 && boxB.top < boxA.bottom - 1 && boxA.left < boxB.right - 1 && boxB.left < boxA.right - 1)
      .map(([b]) => `${a.id || a.className || a.localName} and ${b.id || b.className || b.localName}`));
  },

  // What overflows its own box sideways, or the window.
  wide: () => [...document.querySelectorAll("html, main, header, .lists, .pane, .fault, .step, .chosen, .card, table, aside, nav, dialog[open]")]
    .filter((one) => one.scrollWidth > one.clientWidth + 1 && one.getClientRects().length > 0 && !scrolls(one))
    .map((one) => `${one.className || one.localName}: ${one.scrollWidth} > ${one.clientWidth}`),

  // The contrast of the first node of each selector with what is behind it.
  contrast: (selectors) => selectors.flatMap((selector) => {
    const [node] = probe.nodes(selector);
    if (!node) return [];
    const [a, b] = [luminance(colour(getComputedStyle(node).color)), luminance(ground(node))];
    return [[selector, (Math.max(a, b) + 0.05) / (Math.min(a, b) + 0.05)]];
  }),
};

const scrolls = (node) => node.localName !== "html" && /auto|scroll/.test(getComputedStyle(node).overflowX);

// Whether something of it is inside the window and all panes around it.
function isSeen(node) {
  const style = getComputedStyle(node);
  if (style.visibility === "hidden" || style.display === "none") return false;
  let { left, top, right, bottom } = node.getBoundingClientRect();
  for (const pane of document.querySelectorAll(".scroll, .stage, aside, .pane, .lists, .chosen")) {
    if (!pane.contains(node)) continue;
    const box = pane.getBoundingClientRect();
    [left, top] = [Math.max(left, box.left), Math.max(top, box.top)];
    [right, bottom] = [Math.min(right, box.right), Math.min(bottom, box.bottom)];
  }
  return right - left > 1 && bottom - top > 1;
}

// The size of an element's letters; in a drawing as it is scaled.
function sizeOf(node) {
  const size = parseFloat(getComputedStyle(node).fontSize);
  return node.getScreenCTM ? size * node.getScreenCTM().a : size;
}

const isDrawn = (node) => node instanceof SVGElement;
const inkOf = (node) => luminance(colour(getComputedStyle(node)[isDrawn(node) ? "fill" : "color"]));
const nameOf = (node) => `${node.getAttribute("class") || node.localName} "${node.textContent.slice(0, 30)}"`;
const ratio = (a, b) => (Math.max(a, b) + 0.05) / (Math.min(a, b) + 0.05);

// What is behind a text: in a drawing the shape of its group that was drawn last before it, else the pane.
function groundOf(node) {
  if (!isDrawn(node)) return luminance(ground(node));
  const text = node.closest("text");
  for (let group = text.parentElement; isDrawn(group) && group.localName !== "svg"; group = group.parentElement) {
    const shapes = [...group.querySelectorAll(":scope > :is(rect, circle)")]
      .filter((shape) => !text.matches(".words") || !shape.matches(".band:not(.held)")).filter((shape) => covers(shape, text));
    const filled = shapes.map((shape) => colour(getComputedStyle(shape).fill)).filter((one) => one[3] === 255);
    if (filled.length) return luminance(filled[filled.length - 1]);
  }
  return luminance(ground(node.closest("svg").parentElement));
}

function covers(shape, text) {
  const [outer, inner] = [shape.getBoundingClientRect(), text.getBoundingClientRect()];
  const middle = inner.top + inner.height / 2;
  return outer.left <= inner.left + 2 && outer.top <= middle && outer.bottom >= middle;
}

const canvas = document.createElement("canvas").getContext("2d", { willReadFrequently: true });

function colour(name) {
  canvas.clearRect(0, 0, 1, 1);
  canvas.fillStyle = name;
  canvas.fillRect(0, 0, 1, 1);
  return [...canvas.getImageData(0, 0, 1, 1).data];
}

// As WCAG 2 defines it.
function luminance(rgb) {
  const [r, g, b] = rgb.slice(0, 3).map((part) => part / 255)
    .map((part) => (part <= 0.03928 ? part / 12.92 : ((part + 0.055) / 1.055) ** 2.4));
  return 0.2126 * r + 0.7152 * g + 0.0722 * b;
}

function ground(node) {
  for (let at = node; at; at = at.parentElement) {
    const behind = colour(getComputedStyle(at).backgroundColor);
    if (behind[3] === 255) return behind;
  }
  return [255, 255, 255, 255];
}
