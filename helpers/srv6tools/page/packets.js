// Packets: their list with their ends, and a walk from stage to stage.

// All walks that the list has, in order; others belong to lists and tables.
const LISTED = DATA.groups.flatMap((group) => group.walks);
const MOST_ENDS = 12; // that are summed up by themselves

function showPackets() {
  pane("side", "packets", () => DATA.groups.map(groupList));
  if (LISTED.length) {
    showWalk(LISTED.includes(KIND.walk) ? KIND.walk : LISTED[0], KIND.stage);
  }
}

// The packets of a group, with their ends.
function groupList(group) {
  const side = make("div", {});
  side.append(make("h2", {}, `${count(group.walks.length, "packet")}: ${group.label}`));
  const ends = new Map();
  for (const number of group.walks) {
    const end = words(DATA.walks[number].end);
    ends.set(end, (ends.get(end) || 0) + 1);
  }
  const rows = make("ol", { class: "rows", "aria-label": group.label });
  side.append(make("h3", {}, "How they end"), endsTable(ends, rows));
  if (group.left_out) {
    side.append(make("p", { class: "warn" }, `${count(group.left_out, "packet")} more aren't shown.`));
  }
  if (group.uncounted) {
    const which = count(group.uncounted, "packet");
    side.append(make("p", { class: "warn uncounted" }, `Of ${which} the walks over all choices aren't counted: it would take too long.`));
  }
  side.append(make("h3", {}, "One by one"));
  for (const number of group.walks) {
    const walk = DATA.walks[number];
    const end = words(walk.end);
    rows.append(make("li", { "data-end": end }, make("button", { type: "button", id: `walk${number}`, "data-walk": number },
      make("span", { class: "number soft" }, String(walk.number)),
      make("span", { class: endClass(end) }, endSign(end)), make("span", {}, end))));
  }
  rows.addEventListener("click", (event) => {
    const row = event.target.closest("button");
    if (row) {
      showWalk(Number(row.dataset.walk), 0);
    }
  });
  side.append(rows);
  if (group.unread.length) {
    side.append(make("h3", {}, "Not read"), make("ul", { class: "unread" }, ...group.unread.map(([number, cause]) =>
      make("li", {}, `packet ${number}: ${cause}`))));
  }
  return side;
}

// How many packets have each end; a click shows those alone, another one all of them.
function endsTable(ends, rows) {
  const sorted = [...ends].sort((one, other) => other[1] - one[1]);
  const shown = sorted.slice(0, MOST_ENDS);
  const table = make("table", { class: "ends-summary" }, ...shown.map(([end, times]) => make("tr", {},
    make("td", { class: "mono" }, String(times)),
    make("td", {}, button(`${endSign(end)} ${end}`, (event) => showEnd(event.currentTarget, end, rows),
      { class: `end-only ${endClass(end)}`, "aria-pressed": "false", title: "Shows these packets alone, or all" })))));
  const more = sorted.length - shown.length;
  return more ? make("div", {}, table, make("p", { class: "soft" }, `${count(more, "other end")} below.`)) : table;
}

function showEnd(pressed, end, rows) {
  const isOn = pressed.getAttribute("aria-pressed") !== "true";
  for (const other of pressed.closest("table").querySelectorAll("button")) {
    other.setAttribute("aria-pressed", String(isOn && other === pressed));
  }
  let first = null;
  for (const row of rows.children) {
    row.hidden = isOn && row.dataset.end !== end;
    first = first || (row.hidden ? null : row.firstChild);
  }
  const walk = byId(`walk${KIND.walk}`);
  if (first && (!walk || walk.parentElement.hidden)) {
    showWalk(Number(first.dataset.walk), 0);
  }
}

// Shows a walk at a stage; the stage behind the last is the last.
function showWalk(number, stage) {
  if (KIND.walk !== number) {
    KIND.fan = false;
  }
  const walk = DATA.walks[number];
  KIND.walk = number;
  KIND.stage = Math.max(0, Math.min(stage, walk.stages.length - 1));
  for (const old of document.querySelectorAll('.rows [aria-current="true"]')) {
    old.removeAttribute("aria-current");
  }
  const row = byId(`walk${number}`);
  if (row) {
    row.setAttribute("aria-current", "true");
    row.scrollIntoView({ block: "nearest" });
  }
  clearMap();
  if (KIND.broken) {
    markFailure(KIND.broken);
  }
  if (KIND.fan && walk.fan >= 0) {
    drawFan(DATA.fans[walk.fan]);
  } else {
    drawWalk(walk, KIND.stage);
  }
  const detail = KIND.view === "packets" ? byId("detail-told") : byId("walker");
  const focused = detail.contains(document.activeElement) ? document.activeElement.id : "";
  detail.replaceChildren(...walkParts(walk));
  if (focused && byId(focused)) {
    byId(focused).focus({ preventScroll: true });
  }
}

function step(by) {
  if (KIND.walk >= 0) {
    showWalk(KIND.walk, KIND.stage + by);
  }
}

function nextPacket(by) {
  let at = LISTED.indexOf(KIND.walk) + by;
  while (KIND.view === "packets" && at >= 0 && at < LISTED.length) {
    if (!byId(`walk${LISTED[at]}`).parentElement.hidden) {
      showWalk(LISTED[at], 0);
      return;
    }
    at += by;
  }
}

function play() {
  if (KIND.playing) {
    window.clearInterval(KIND.playing);
    KIND.playing = 0;
  } else if (KIND.walk >= 0) {
    if (KIND.stage >= DATA.walks[KIND.walk].stages.length - 1) {
      showWalk(KIND.walk, 0);
    }
    KIND.playing = window.setInterval(() => {
      step(1);
      if (KIND.stage >= DATA.walks[KIND.walk].stages.length - 1) {
        play();
      }
    }, 900);
  }
  const label = byId("play");
  if (label) {
    label.textContent = KIND.playing ? "Stop" : "Play";
  }
}

function walkParts(walk) {
  const last = walk.stages.length - 1;
  const end = words(walk.end);
  const parts = [make("h2", {}, `Packet ${walk.number}, ${walk.group}: `,
    make("span", { id: "walkend", class: endClass(end) }, `${endSign(end)} ${end}`))];
  if (walk.more) {
    parts.push(make("p", { class: "warn" }, `${count(walk.more, "stage")} more aren't shown.`));
  }
  const slider = make("input", {
    type: "range", id: "slider", min: 0, max: last, value: KIND.stage, "aria-label": "Stage",
    "aria-valuetext": `stage ${KIND.stage + 1} of ${last + 1}`,
  });
  slider.value = KIND.stage;
  slider.addEventListener("input", () => showWalk(KIND.walk, Number(slider.value)));
  parts.push(make("div", { class: "player" },
    button("\u25c0", () => step(-1), { title: "The stage before (left arrow)", id: "before" }),
    button(KIND.playing ? "Stop" : "Play", play, { id: "play", title: "Play (Space)" }),
    button("\u25b6", () => step(1), { title: "The next stage (right arrow)", id: "after" }), slider,
    make("span", { id: "stagenumber" }, `stage ${KIND.stage + 1} of ${last + 1}`),
    walk.fan >= 0 ? button(fanLabel(walk), toggleFan, { id: "fan", "aria-pressed": String(KIND.fan) }) : null));
  if (KIND.fan && walk.fan >= 0) {
    parts.push(...fanParts(DATA.fans[walk.fan]));
  }
  parts.push(stageList(walk), ...stageParts(walk, KIND.stage));
  return parts;
}

// All stages of a walk in words, made once they are asked for; a click goes there.
function stageList(walk) {
  const box = make("details", { id: "stages", open: KIND.allStages },
    make("summary", { id: "stagessaid" }, `All ${count(walk.stages.length, "stage")} in words`));
  const fillIn = () => {
    if (box.open && box.children.length === 1) {
      box.append(make("ol", {}, ...walk.stages.map((_, number) => {
        const stage = stageOf(walk, number);
        const line = button([make("b", {}, NET.nodes[stage.node].name), " ", ...withCode(stage.said), make("span", { class: "soft" }, ` (${stage.rfc})`)],
          () => showWalk(KIND.walk, number), { id: `stage${number}`, "aria-current": number === KIND.stage ? "step" : null });
        return make("li", {}, line);
      })));
    }
  };
  fillIn();
  box.addEventListener("toggle", () => {
    KIND.allStages = box.open;
    fillIn();
  });
  return box;
}

// Paper has no clicks: all stages are printed.
function listenToPrint() {
  let was = false;
  const open = (isOpen) => {
    KIND.allStages = isOpen;
    if (KIND.walk >= 0 && byId("stages")) {
      showWalk(KIND.walk, KIND.stage);
    }
  };
  window.addEventListener("beforeprint", () => { was = KIND.allStages; open(true); });
  window.addEventListener("afterprint", () => open(was));
}

function fanLabel(walk) {
  return `All walks: ${DATA.fans[walk.fan].walks}`;
}

function toggleFan() {
  KIND.fan = !KIND.fan;
  showWalk(KIND.walk, KIND.stage);
}

function fanParts(fan) {
  const ends = fan.ends.map(([end, times]) => make("tr", {}, make("td", { class: "mono" }, times),
    make("td", { class: endClass(words(end)) }, `${endSign(words(end))} ${words(end)}`)));
  const ways = fan.ways.map(([links, end]) => make("li", {}, button(
    links.map((link) => NET.links[link].name).join(" ") || "no link", () => showWay(links, end), { class: "plain way" })));
  const more = Number(fan.walks) - fan.ways.length;
  return [make("h3", {}, `${count(fan.walks, "walk")} over all choices among equal next hops`),
    make("table", { id: "fanends" }, ...ends), make("ol", { class: "ways" }, ...ways),
    more > 0 ? make("p", { class: "soft" }, `${more} more aren't listed one by one.`) : null].filter(Boolean);
}

function showWay(links, end) {
  clearMap();
  drawFan({ walks: "1", links: links.map((link) => [link, "1"]) });
  byId("legend").textContent = `This walk: ${words(end)}`;
}

function stageParts(walk, number) {
  const stage = stageOf(walk, number);
  const node = NET.nodes[stage.node].name;
  const before = viewBefore(walk, number);
  const found = stage.entry ? `Found: ${stage.entry}. ` : "";
  const changed = stage.changed ? ` Changed: ${stage.changed}.` : "";
  const said = make("p", { class: "said", id: "decision" }, make("strong", {}, node), " ", ...withCode(stage.said), ". ",
    make("span", { class: "soft", id: "rfc" }, `(${stage.rfc})`));
  announce(`Stage ${number + 1}: ${node} ${stage.said}`);
  const parts = [said, make("p", { class: "soft", id: "entry" }, found, changed)];
  const mark = stage.mark || [[], [], [], []];
  const isError = stage.kind === "drop";
  const left = headerBox(isError || stage.view < 0 ? "The packet" : "Before", before, mark[0], mark[1], "gone");
  const right = stage.view < 0 ? null
    : headerBox(isError ? `The ICMPv6 error that ${node} sends` : "After", stage.view, mark[2], mark[3], "new");
  parts.push(make("div", { class: "pair" }, left, right));
  return parts;
}

// Scrolls a box, and nothing round it, so far that a part of it is seen.
function bringInto(box, part) {
  if (part) {
    const [outer, inner] = [box.getBoundingClientRect(), part.getBoundingClientRect()];
    if (inner.top < outer.top || inner.bottom > outer.bottom) {
      box.scrollTop += inner.top - outer.top - outer.height / 3;
    }
  }
}

// The headers of a packet, field by field, and its bytes; a field under the pointer is marked in both.
function headerBox(title, view, changed, parts, how) {
  const packet = packetOf(view);
  const box = make("div", { class: "packet" }, make("h3", {}, `${title} (${count(packet.bytes.length, "byte")})`));
  const bytes = make("div", { class: "bytes mono", role: "img", "aria-label": `${title}: bytes in hexadecimal` });
  const fields = [];
  const changedBytes = new Set();
  let place = 0;
  packet.parts.forEach(([label, rows], part) => {
    const list = make("div", { class: "fields" });
    for (const [name, at, bits] of rows) {
      const number = place;
      place += 1;
      const isChanged = changed.includes(number);
      fields.push([at, bits]);
      if (isChanged) {
        for (let byte = at >> 3; byte < (at + bits + 7) >> 3; byte += 1) {
          changedBytes.add(byte);
        }
      }
      list.append(make("span", {
        class: isChanged ? "field changed" : "field", "data-field": number, tabindex: "0",
        title: `${name}: ${bits} bits from bit ${at} on${isChanged ? ", changed" : ""}`,
      }, make("i", {}, name), ` ${words(packet.values[number])}`));
    }
    box.append(make("div", { class: parts.includes(part) ? `part ${how}` : "part" }, make("b", {}, label), list));
  });
  packet.bytes.forEach((byte, at) => {
    if (at % 16 === 0) {
      bytes.append(make("span", { class: "offset" }, `${at ? "\n" : ""}${String(at).padStart(4)} `));
    }
    bytes.append(" ", make("span", { class: changedBytes.has(at) ? "byte changed" : "byte", "data-byte": at, title: `byte ${at}` }, byte));
  });
  box.append(bytes);
  const light = (number) => {
    for (const old of box.querySelectorAll(".lit")) {
      old.classList.remove("lit");
    }
    if (number < 0) {
      return;
    }
    const [at, bits] = fields[number];
    bringInto(bytes, bytes.querySelector(`[data-byte="${at >> 3}"]`));
    box.querySelector(`[data-field="${number}"]`).classList.add("lit");
    for (let byte = at >> 3; byte < (at + bits + 7) >> 3; byte += 1) {
      const one = bytes.querySelector(`[data-byte="${byte}"]`);
      if (one) {
        one.classList.add("lit");
      }
    }
  };
  const point = (event) => {
    const field = event.target.closest(".field");
    const byte = event.target.closest(".byte");
    if (field) {
      light(Number(field.dataset.field));
    } else if (byte) {
      const bit = Number(byte.dataset.byte) * 8;
      light(fields.findIndex(([at, bits]) => at < bit + 8 && at + bits > bit));
    }
  };
  box.addEventListener("mouseover", point);
  box.addEventListener("focusin", point);
  box.addEventListener("mouseleave", () => light(-1));
  return box;
}
