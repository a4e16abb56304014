"use strict";
// What all views share: the data of the page, making of elements, packets by their numbers.

const DATA = JSON.parse(document.getElementById("data").textContent);
const NET = DATA.net;
const KIND = { view: "network", walk: -1, stage: 0, playing: 0, fan: false, allStages: false };

function words(number) {
  return DATA.texts[number];
}

function byId(name) {
  return document.getElementById(name);
}

// An element with attributes and children; `on` is what a click does.
function make(tag, attributes, ...children) {
  return fill(document.createElement(tag), attributes, children);
}

function draw(tag, attributes, ...children) {
  return fill(document.createElementNS("http://www.w3.org/2000/svg", tag), attributes, children);
}

function fill(element, attributes, children) {
  for (const [name, value] of Object.entries(attributes || {})) {
    if (name === "on") {
      element.addEventListener("click", value);
    } else if (value !== null && value !== undefined && value !== false) {
      element.setAttribute(name, value === true ? "" : value);
    }
  }
  element.append(...children.filter((one) => one !== null && one !== undefined));
  return element;
}

function button(label, on, attributes) {
  return make("button", { type: "button", on, ...attributes }, ...[label].flat());
}

// A pane of a section (the list at the side, the details), which is shown in place of the section's others and made once by a function. What
// isn't shown keeps its layout, so that it is there at once when it is shown again.
function pane(section, name, makeParts) {
  let own = byId(`${section}-${name}`);
  if (!own) {
    own = make("div", { class: "pane", id: `${section}-${name}`, tabindex: "-1" }, ...makeParts());
    byId(section).append(own);
  }
  for (const one of byId(section).children) {
    one.classList.toggle("shown", one === own);
  }
  return own;
}

// Shows parts as the details, in place of what was told before.
function tell(...parts) {
  pane("detail", "told", () => []).replaceChildren(...parts);
}

// A text whose parts between backticks are words of files.
function withCode(text) {
  return text.split("`").map((part, place) => (place % 2 ? make("code", {}, part) : part));
}

// Says something to those who listen to the page.
function announce(what) {
  byId("said").textContent = what;
}

const packetsKnown = new Map();

// A packet: its shape (parts with their fields), its bytes, and the text of each field.
function packetOf(number) {
  const todo = [];
  let at = number;
  while (!packetsKnown.has(at) && DATA.views[at].length === 4) {
    todo.push(at);
    at = DATA.views[at][0];
  }
  let whole = packetsKnown.get(at);
  if (!whole) {
    const [shape, hex, values] = DATA.views[at];
    const bytes = hex.match(/../g) || [];
    whole = { parts: DATA.shapes[shape], bytes, values };
    packetsKnown.set(at, whole);
  }
  while (todo.length) {
    at = todo.pop();
    const [, fields, pieces] = DATA.views[at];
    const values = whole.values.slice();
    const bytes = whole.bytes.slice();
    for (const [place, value] of fields) {
      values[place] = value;
    }
    for (const [place, hex] of pieces) {
      hex.match(/../g).forEach((byte, step) => { bytes[place + step] = byte; });
    }
    whole = { parts: whole.parts, bytes, values };
    packetsKnown.set(at, whole);
  }
  return whole;
}

// A stage of a walk, with names for what stands in its row.
function stageOf(walk, number) {
  const [node, kind, said, entry, rfc, link, view, mark, changed, sid] = walk.stages[number];
  return {
    node, kind: words(kind), said: words(said), entry: words(entry), rfc: words(rfc), link, view,
    mark: mark < 0 ? null : DATA.marks[mark], changed: words(changed), sid,
  };
}

// The packet before a stage.
function viewBefore(walk, number) {
  for (let at = number - 1; at >= 0; at -= 1) {
    if (walk.stages[at][6] >= 0) {
      return walk.stages[at][6];
    }
  }
  return walk.view;
}

function endClass(end) {
  if (end.startsWith("left") || end.startsWith("delivered")) {
    return "good";
  }
  return "bad";
}

function endSign(end) {
  if (end.startsWith("left")) {
    return "\u2192";
  }
  return end.startsWith("delivered") ? "\u25cf" : "\u00d7";
}

function count(number, what) {
  return `${number} ${what}${String(number) === "1" ? "" : "s"}`;
}
