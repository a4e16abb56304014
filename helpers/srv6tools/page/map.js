// The map: nodes and links, panning and zooming, and what is drawn over them.

const MAP = { svg: byId("map"), links: [], nodes: [], whole: null, box: null, over: null, size: 1, marked: [], hovered: -1 };
const HALF = 11; // of a node's height, before it is made larger
const REACH = 7; // pixels round a link in which the pointer is at it

function halfWidth(name) {
  return Math.max(15, name.length * 3.9 + 7);
}

// Where a line from a node's middle leaves its box.
function edgeOf(node, dx, dy) {
  const wide = (halfWidth(node.name) + 2) * MAP.size;
  const high = (HALF + 2) * MAP.size;
  const share = Math.min(wide / (Math.abs(dx) || 1e-9), high / (Math.abs(dy) || 1e-9));
  return [node.x + dx * share, node.y + dy * share];
}

// The curve of a link: links of one direction lie on one side, further ones farther out.
function shapeOf(link, turn) {
  const from = NET.nodes[link.from];
  const to = link.to < 0 ? { x: link.end[0], y: link.end[1], name: "" } : NET.nodes[link.to];
  const dx = to.x - from.x;
  const dy = to.y - from.y;
  const size = Math.hypot(dx, dy) || 1;
  const bend = link.to < 0 ? 0 : (7 + 13 * turn) * Math.sqrt(MAP.size);
  const px = (-dy / size) * bend;
  const py = (dx / size) * bend;
  const mx = (from.x + to.x) / 2 + px * 1.6;
  const my = (from.y + to.y) / 2 + py * 1.6;
  const [ax, ay] = edgeOf(from, mx - from.x, my - from.y);
  const [bx, by] = link.to < 0 ? link.end : edgeOf(to, mx - to.x, my - to.y);
  const at = (share) => [ // a point of the curve, from 0 to 1
    (1 - share) ** 2 * ax + 2 * share * (1 - share) * mx + share ** 2 * bx,
    (1 - share) ** 2 * ay + 2 * share * (1 - share) * my + share ** 2 * by];
  const [stepX, stepY] = at(0.36);
  return { d: `M${ax.toFixed(1)} ${ay.toFixed(1)}Q${mx.toFixed(1)} ${my.toFixed(1)} ${bx.toFixed(1)} ${by.toFixed(1)}`, at, stepX, stepY };
}

function linkWords(link) {
  const to = link.to < 0 ? "out of the network" : `to ${NET.nodes[link.to].name}`;
  const mtu = link.mtu === null ? "" : `, MTU ${link.mtu}`;
  const metric = link.metric === null || link.metric === undefined ? "" : `, metric ${link.metric}`;
  return `link ${link.name} from ${NET.nodes[link.from].name} ${to}${metric}${mtu}`;
}

function linkLabel(link) {
  const metric = link.metric === null || link.metric === undefined ? "" : ` (${link.metric})`;
  return `${link.name}${metric}${link.mtu === null ? "" : ` mtu ${link.mtu}`}`;
}

function drawMap() {
  const turns = new Map();
  const links = draw("g", { class: "links" }); // one path each, which has its look from here: a large map has a thousand
  const ends = draw("g", { class: "ends" });
  const nodes = draw("g", {});
  const labels = draw("g", { class: "labels", "aria-hidden": "true" });
  NET.links.forEach((link, number) => {
    const key = `${link.from} ${link.to}`;
    const turn = turns.get(key) || 0;
    turns.set(key, turn + 1);
    const shape = shapeOf(link, turn);
    const path = draw("path", { class: "link", id: `link${number}`, "data-link": number, d: shape.d }, draw("title", {}, linkWords(link)));
    if (link.to < 0) {
      ends.append(draw("circle", { cx: link.end[0], cy: link.end[1], r: 3.5 }));
    }
    MAP.links.push({ path, shape, turn, label: null });
    links.append(path);
  });
  NET.nodes.forEach((node, number) => {
    const wide = halfWidth(node.name);
    const sids = node.sids.length ? `, ${count(node.sids.length, "SID")}` : "";
    const group = draw("g", {
      class: "node", id: `node${number}`, transform: `translate(${node.x} ${node.y})`,
      tabindex: "0", role: "button", "aria-label": `node ${node.name}${sids}`,
    },
    draw("circle", { r: 7 }),
    draw("rect", { x: -wide, y: -HALF, width: 2 * wide, height: 2 * HALF, rx: 5 }),
    draw("text", { y: 4.3 }, node.name),
    draw("title", {}, `${node.name} ${node.address}${sids}`));
    group.addEventListener("click", () => showNode(number));
    group.addEventListener("keydown", (event) => {
      if (event.key === "Enter" || event.key === " ") {
        showNode(number);
        event.preventDefault();
      }
    });
    MAP.nodes.push(group);
    nodes.append(group);
  });
  MAP.over = draw("g", { "aria-hidden": "true" });
  MAP.labels = labels;
  const tips = [["tip", "--link", 8], ["walktip", "--walk", 12], ["nowtip", "--now", 15], ["fantip", "--walk", 17]];
  MAP.tips = tips.map(([name, colour, size]) => [tip(name, colour), size]);
  MAP.svg.append(draw("defs", {}, ...MAP.tips.map(([one]) => one)), links, ends, MAP.over, labels, nodes);
  MAP.whole = wholeBox();
  setBox(MAP.whole);
}

function tip(name, colour) {
  return draw("marker", { id: name, viewBox: "0 0 10 10", refX: 9, refY: 5, markerUnits: "userSpaceOnUse", orient: "auto" },
    draw("path", { d: "M0 1L10 5L0 9z", style: `fill:var(${colour});stroke:none` }));
}

// Makes boxes larger where the map is small, and lets links end at them.
function resize(size) {
  MAP.size = size;
  NET.nodes.forEach((node, number) => {
    MAP.nodes[number].setAttribute("transform", `translate(${node.x} ${node.y}) scale(${size})`);
  });
  NET.links.forEach((link, number) => {
    const one = MAP.links[number];
    one.shape = shapeOf(link, one.turn);
    one.path.setAttribute("d", one.shape.d);
  });
  for (const group of MAP.over.querySelectorAll("[data-link]")) {
    place(group, MAP.links[Number(group.dataset.link)].shape);
  }
}

function place(group, shape) {
  for (const path of group.querySelectorAll("path")) {
    path.setAttribute("d", shape.d);
  }
  for (const label of group.querySelectorAll("text")) {
    label.setAttribute("x", shape.stepX);
    label.setAttribute("y", shape.stepY);
  }
}

const LABEL_AT = [0.64, 0.54, 0.74, 0.46, 0.84]; // where a label may stand on its link, from 0 to 1

// Gives each label in sight a place where it covers nothing, at a number of pixels for a unit of the map; one that has none is not
// shown until the map is closer.
function placeLabels(scale) {
  const taken = new Map(); // boxes by squares of the map
  const side = 90 / scale;
  const squares = ([x, y, wide, high], each) => {
    for (let column = Math.floor((x - wide) / side); column <= Math.floor((x + wide) / side); column += 1) {
      for (let row = Math.floor((y - high) / side); row <= Math.floor((y + high) / side); row += 1) {
        each(`${column} ${row}`);
      }
    }
  };
  const take = (box) => squares(box, (key) => taken.set(key, [...(taken.get(key) || []), box]));
  const isFree = ([x, y, wide, high]) => {
    let free = true;
    squares([x, y, wide, high], (key) => {
      free = free && !(taken.get(key) || []).some((box) =>
        Math.abs(box[0] - x) < box[2] + wide && Math.abs(box[1] - y) < box[3] + high);
    });
    return free;
  };
  const [left, top, across, down] = MAP.box;
  const isSeen = (...ends) => ends.some(([x, y]) => x > left - across / 2 && x < left + 1.5 * across && y > top - down && y < top + 2 * down);
  NET.nodes.forEach((node) => take([node.x, node.y, halfWidth(node.name) * MAP.size, HALF * MAP.size]));
  for (const group of MAP.over.querySelectorAll("[data-link]")) {
    const { shape } = MAP.links[Number(group.dataset.link)];
    take([shape.stepX, shape.stepY, 8 / scale, 7 / scale]);
  }
  for (const mark of MAP.over.querySelectorAll(".mark text")) {
    take([Number(mark.getAttribute("x")), Number(mark.getAttribute("y")), 45 / scale, 8 / scale]);
  }
  NET.links.forEach((link, number) => {
    const { shape } = MAP.links[number];
    const text = linkLabel(link);
    const wide = (text.length * 2.8 + 2) / scale;
    const [[ax, ay], [bx, by]] = [shape.at(0), shape.at(1)];
    const hidden = Math.min(2 * wide / (Math.abs(bx - ax) || 1e-9), 12 / scale / (Math.abs(by - ay) || 1e-9)); // of the line
    const spot = hidden < 0.7 && isSeen([ax, ay], [bx, by]) && LABEL_AT.map((share) => [...shape.at(share), wide, 6 / scale]).find(isFree);
    const one = MAP.links[number];
    if (spot) {
      take(spot);
      one.label = one.label || draw("text", { dy: ".35em" }, text);
      one.label.setAttribute("x", spot[0]);
      one.label.setAttribute("y", spot[1]);
      if (!one.label.parentNode) {
        MAP.labels.append(one.label);
      }
    } else if (one.label) {
      one.label.remove();
    }
  });
}

// The box around all, with some room.
function wholeBox() {
  const xs = NET.nodes.map((node) => node.x);
  const ys = NET.nodes.map((node) => node.y);
  for (const link of NET.links) {
    if (link.end) {
      xs.push(link.end[0]);
      ys.push(link.end[1]);
    }
  }
  const left = Math.min(...xs) - 60;
  const top = Math.min(...ys) - 45;
  return [left, top, Math.max(...xs) + 60 - left, Math.max(...ys) + 45 - top];
}

function setBox(box) {
  MAP.box = box;
  MAP.svg.setAttribute("viewBox", box.map((one) => one.toFixed(2)).join(" "));
  window.clearTimeout(MAP.later);
  if (MAP.scaled) {
    MAP.later = window.setTimeout(scaleParts, 80); // once the wheel rests
  } else {
    MAP.scaled = true;
    scaleParts();
  }
}

// Gives boxes, arrows and labels their sizes on the screen.
function scaleParts() {
  const place = MAP.svg.getBoundingClientRect();
  const scale = Math.min(place.width / MAP.box[2], place.height / MAP.box[3]) || 1; // pixels of a unit
  const unit = LINK_LENGTH * scale;
  for (const [one, pixels] of MAP.tips) {
    one.setAttribute("markerWidth", pixels / scale);
    one.setAttribute("markerHeight", pixels / scale);
  }
  MAP.svg.style.setProperty("--u", `${1 / scale}px`);
  MAP.over.style.fontSize = `${11 / scale}px`;
  MAP.labels.style.fontSize = `${10 / scale}px`;
  const size = Math.round(Math.max(0.7, Math.min(2, 0.95 / scale)) * 5) / 5;
  if (size !== MAP.size) {
    resize(size);
  }
  MAP.svg.classList.toggle("far", unit < 44);
  MAP.svg.classList.toggle("near", unit > 100);
  MAP.scale = scale;
  dressOver();
}

// What goes by the map's scale in what is drawn over it, and labels that make room for it.
function dressOver() {
  for (const path of MAP.over.querySelectorAll(".fan path")) {
    path.style.strokeDasharray = `${Math.max(1, path.getTotalLength() - 8 / MAP.scale)} 9999`; // its arrow goes on from there
  }
  if (MAP.svg.classList.contains("near")) {
    placeLabels(MAP.scale);
  }
}

const LINK_LENGTH = (() => {
  const sizes = NET.links.filter((link) => link.to >= 0).map((link) => Math.hypot(
    NET.nodes[link.from].x - NET.nodes[link.to].x, NET.nodes[link.from].y - NET.nodes[link.to].y));
  sizes.sort((one, other) => one - other);
  return sizes.length ? sizes[Math.floor(sizes.length / 2)] || 120 : 120;
})();

// Zooms by a factor, round a point of the screen or the middle.
function zoom(factor, event) {
  const [left, top, wide, high] = MAP.box;
  const place = MAP.svg.getBoundingClientRect();
  const least = Math.min(MAP.whole[2], MAP.whole[3]) / 60;
  if ((factor < 1 && wide * factor < least) || (factor > 1 && wide > MAP.whole[2] * 4)) {
    return;
  }
  const x = event ? (event.clientX - place.left) / place.width : 0.5;
  const y = event ? (event.clientY - place.top) / place.height : 0.5;
  setBox([left + wide * (1 - factor) * x, top + high * (1 - factor) * y, wide * factor, high * factor]);
}

function pan(x, y) {
  const [left, top, wide, high] = MAP.box;
  setBox([left + x, top + y, wide, high]);
}

// Brings a node into the middle, near enough to read.
function centre(number) {
  const node = NET.nodes[number];
  const wide = Math.min(MAP.box[2], LINK_LENGTH * 8);
  const high = (wide * MAP.box[3]) / MAP.box[2];
  setBox([node.x - wide / 2, node.y - high / 2, wide, high]);
}

function listenToMap() {
  let from = null;
  let moved = 0; // pixels since the pointer was pressed
  MAP.svg.addEventListener("wheel", (event) => {
    event.preventDefault();
    zoom(event.deltaY < 0 ? 0.85 : 1 / 0.85, event);
  }, { passive: false });
  MAP.svg.addEventListener("pointerdown", (event) => {
    from = [event.clientX, event.clientY];
    moved = 0;
  });
  MAP.svg.addEventListener("click", (event) => {
    const link = moved > 4 || event.target.closest(".node") ? -1 : linkAt(event);
    if (link >= 0) {
      showLink(link);
    }
  });
  MAP.svg.addEventListener("pointermove", (event) => {
    if (!from) {
      hoverLink(event.target.closest(".node") ? -1 : linkAt(event));
    }
  });
  MAP.svg.addEventListener("pointerleave", () => hoverLink(-1));
  window.addEventListener("pointermove", (event) => {
    if (!from) {
      return;
    }
    moved += Math.hypot(event.clientX - from[0], event.clientY - from[1]);
    const place = MAP.svg.getBoundingClientRect();
    const scale = Math.min(place.width / MAP.box[2], place.height / MAP.box[3]) || 1;
    pan((from[0] - event.clientX) / scale, (from[1] - event.clientY) / scale);
    from = [event.clientX, event.clientY];
  });
  window.addEventListener("pointerup", () => { from = null; });
  new ResizeObserver(() => setBox(MAP.box)).observe(MAP.svg);
  byId("zoomin").addEventListener("click", () => zoom(0.8));
  byId("zoomout").addEventListener("click", () => zoom(1.25));
  byId("whole").addEventListener("click", () => setBox(MAP.whole));
}

// The link at the pointer, or -1: the nearest one within its reach.
function linkAt(event) {
  const place = MAP.svg.getBoundingClientRect();
  const scale = Math.min(place.width / MAP.box[2], place.height / MAP.box[3]) || 1;
  const x = MAP.box[0] + MAP.box[2] / 2 + (event.clientX - place.left - place.width / 2) / scale;
  const y = MAP.box[1] + MAP.box[3] / 2 + (event.clientY - place.top - place.height / 2) / scale;
  let [best, least] = [-1, REACH / scale];
  MAP.links.forEach(({ shape }, number) => {
    let [ax, ay] = shape.at(0);
    for (let part = 1; part <= 8; part += 1) { // a curve is near enough to eight lines
      const [bx, by] = shape.at(part / 8);
      const [dx, dy] = [bx - ax, by - ay];
      const share = Math.max(0, Math.min(1, ((x - ax) * dx + (y - ay) * dy) / (dx * dx + dy * dy || 1)));
      const far = Math.hypot(ax + share * dx - x, ay + share * dy - y);
      if (far < least) {
        [best, least] = [number, far];
      }
      [ax, ay] = [bx, by];
    }
  });
  return best;
}

// Marks the link at the pointer.
function hoverLink(number) {
  if (number !== MAP.hovered) {
    if (MAP.hovered >= 0) {
      MAP.links[MAP.hovered].path.classList.remove("hovered");
    }
    if (number >= 0) {
      MAP.links[number].path.classList.add("hovered");
    }
    MAP.hovered = number;
    MAP.svg.style.cursor = number >= 0 ? "pointer" : "";
  }
}

// Marks a node or a link, until the map is cleared.
function mark(element, how) {
  element.classList.add(how);
  MAP.marked.push([element, how]);
}

// Takes away what is drawn over the map.
function clearMap() {
  MAP.over.replaceChildren();
  for (const [element, how] of MAP.marked) {
    element.classList.remove(how);
  }
  MAP.marked = [];
  byId("legend").textContent = "";
}

function markLinks(numbers, how) {
  for (const number of numbers) {
    const { path, shape } = MAP.links[number];
    mark(path, how);
    if (how === "broken") {
      MAP.over.append(draw("g", { class: "cross", "data-link": number },
        draw("text", { x: shape.stepX, y: shape.stepY, dy: ".35em" }, "\u2715")));
    }
  }
  dressOver();
}

// Marks what failed, and says so.
function markFailure(failure) {
  markLinks(failure.links, "broken");
  for (const number of failure.nodes) {
    mark(MAP.nodes[number], "broken");
  }
  byId("legend").textContent = failure.nodes.length ? "Crossed: links and nodes that failed" : "Crossed: links that failed";
}

// Draws a walk up to a stage: what was sent before, what is sent now, and what comes later.
function drawWalk(walk, now) {
  const sends = new Map();
  let turn = 0;
  walk.stages.forEach((row, number) => {
    if (row[0] >= 0) {
      mark(MAP.nodes[row[0]], "met");
    }
    if (row[5] >= 0) {
      turn += 1;
      const seen = sends.get(row[5]) || { numbers: [], first: number, last: number };
      seen.numbers.push(turn);
      seen.last = number;
      sends.set(row[5], seen);
    }
  });
  for (const [link, seen] of sends) {
    const { shape } = MAP.links[link];
    const isNow = walk.stages[now] && walk.stages[now][5] === link;
    const how = isNow ? "now" : seen.first < now ? "done" : "later";
    const shown = seen.numbers.length > 6 ? `${seen.numbers.slice(0, 5).join(",")}..` : seen.numbers.join(",");
    MAP.over.append(draw("g", { class: `step ${how}`, "data-link": link },
      draw("path", { d: shape.d, "marker-end": `url(#${isNow ? "nowtip" : "walktip"})` }),
      draw("text", { x: shape.stepX, y: shape.stepY, dy: ".35em" }, shown)));
  }
  const stage = walk.stages[now];
  if (stage) {
    mark(MAP.nodes[stage[0]], "on");
    if (words(stage[1]) === "drop" || words(stage[1]) === "local") {
      const [x, y] = freePlace(stage[0]);
      MAP.over.append(draw("g", { class: "mark" }, draw("text", { x, y, dy: ".35em" },
        words(stage[1]) === "drop" ? "\u00d7 dropped" : "\u25cf delivered")));
    }
  }
  dressOver();
}

// Where a mark at a node covers least of links, numbers and other nodes: above, below, at its left or at its right.
function freePlace(number) {
  const node = NET.nodes[number];
  const [wide, high] = [45 / MAP.scale, 9 / MAP.scale]; // half of the mark
  const points = [...MAP.over.querySelectorAll("[data-link]")].map((group) => MAP.links[Number(group.dataset.link)].shape)
    .flatMap((shape) => Array(8).fill([shape.stepX, shape.stepY])); // a number counts more than a line
  for (const { name, x, y } of NET.nodes) {
    if (name !== node.name) { // and so does a node
      const across = halfWidth(name) * MAP.size;
      points.push(...[-across, 0, across].flatMap((dx) => [-HALF, 0, HALF].flatMap((dy) => Array(8).fill([x + dx, y + dy * MAP.size]))));
    }
  }
  NET.links.forEach((link, place) => {
    if (link.from === number || link.to === number) {
      points.push(...[0.1, 0.2, 0.3, 0.4].map((share) => MAP.links[place].shape.at(link.from === number ? share : 1 - share)));
    }
  });
  const up = HALF * MAP.size + high + 3 / MAP.scale;
  const out = halfWidth(node.name) * MAP.size + wide;
  const covered = ([x, y]) => points.filter(([px, py]) => Math.abs(px - x) < wide && Math.abs(py - y) < high).length;
  const places = [[node.x, node.y - up], [node.x, node.y + up], [node.x - out, node.y], [node.x + out, node.y]];
  return places.reduce((best, one) => (covered(one) < covered(best) ? one : best));
}

// Draws all walks of a packet, as wide as many of them go over a link.
function drawFan(fan) {
  const all = Number(fan.walks);
  for (const [link, share] of fan.links) {
    const { shape } = MAP.links[link];
    const wide = 2 + 5 * (Number(share) / all);
    MAP.over.append(draw("g", { class: "fan", "data-link": link },
      draw("path", { d: shape.d, style: `stroke-width:calc(${wide.toFixed(1)} * var(--u))`, "marker-end": "url(#fantip)" }),
      draw("text", { x: shape.stepX, y: shape.stepY, dy: ".35em" }, share)));
    mark(MAP.nodes[NET.links[link].from], "met");
    if (NET.links[link].to >= 0) {
      mark(MAP.nodes[NET.links[link].to], "met");
    }
  }
  dressOver();
  byId("legend").textContent = "Numbers at links: how many of the walks go over it";
}
