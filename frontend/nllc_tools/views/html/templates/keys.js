// Keys: in each list one member can be reached by Tab, and the arrows go on from there.

// The list of which the place is a member.
function group(place) {
  if (place.matches(".cell")) return all(".cell", place.closest("svg"));
  if (place.matches(".end")) return all(".end");
  if (place.matches(".point")) return all(".point", place.closest(".rows, .scroll"));
  if (place.matches("summary")) return all(".block > summary");
  return regionButtons.filter((button) => !button.parentElement.hidden);
}

function rove(members, member) {
  for (const one of members) if (one.tabIndex === 0) one.tabIndex = -1;
  if (member) member.tabIndex = 0;
}

// Whether the parts stand one below the other, so that the document scrolls and not they alone.
const isDocument = () => matchMedia("(max-width: 860px)").matches;

function focusOn(place) {
  if (!place) return;
  rove(group(place), place);
  place.focus({ preventScroll: !isDocument() });
  reveal(place);
}

function neighbour(place, key) {
  if (place.matches(".cell")) return nextCell(place, key);
  const members = group(place).filter(isThere);
  const at = members.indexOf(place);
  const onward = key === "ArrowDown" || key === "ArrowRight";
  return members[key === "Home" ? 0 : key === "End" ? members.length - 1 : onward ? at + 1 : at - 1];
}

// In the graph: down to a successor, up to a predecessor, sideways to the other branches.
function nextCell(place, key) {
  const point = Number(place.dataset.p);
  const graph = place.closest("svg");
  const cellOf = (other) => {
    if (other === undefined || !isPoint(other) || other < 0) return undefined;
    makePlaces(other);
    return placesOf(other).find((one) => one.matches(".cell") && graph.contains(one));
  };
  if (key === "ArrowDown") return cellOf(data.next[point][0]);
  if (key === "ArrowUp") return cellOf(before[point][0]);
  if (key === "Home") return cellOf(0);
  if (key === "End") return cellOf(data.points - 1);
  const siblings = before[point].length ? data.next[before[point][0]] : [];
  const by = key === "ArrowRight" ? 1 : -1;
  const branch = siblings[siblings.indexOf(point) + by];
  return siblings.length > 1 && branch !== undefined ? cellOf(branch) : cellOf(point + by);
}

const keys = {
  "/": () => byId("filter").focus(),
  "[": () => stepRegion(-1),
  "]": () => stepRegion(1),
  n: () => stepRun(1),
  p: () => stepRun(-1),
  "+": () => zoomBy(1.25),
  "=": () => zoomBy(1.25),
  "-": () => zoomBy(0.8),
  0: () => zoomTo(1),
  f: otherView,
  "?": () => byId("help").showModal(),
};

// What the key does here, or null where it is the browser's.
function actOf(event) {
  const place = event.target.closest(".cell, .point, .region, .end, .block > summary");
  if (event.altKey || event.ctrlKey || event.metaKey) return null;
  if (place && /^(Arrow|Home$|End$)/.test(event.key)) {
    return () => focusOn(neighbour(place, event.key));
  }
  if (event.target.matches(".cell") && (event.key === "Enter" || event.key === " ")) {
    return () => chooseElement(Number(place.dataset.p), place);
  }
  if (event.target.matches(".knot") && (event.key === "Enter" || event.key === " ")) {
    return () => chooseRegion(Number(event.target.dataset.r));
  }
  if (event.key === "Escape" && !byId("help").open) {
    return () => {
      byId("filter").blur();
      clear();
    };
  }
  return event.target.matches("input") ? null : keys[event.key] || null;
}

let isHeld = false;

document.addEventListener("keydown", (event) => {
  const act = actOf(event);
  if (!act) return;
  isHeld = event.repeat;
  act();
  event.preventDefault();
});

document.addEventListener("keyup", () => {
  if (!isHeld) return;
  isHeld = false;
  remember();
});
