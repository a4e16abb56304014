// Lists of intents: containers with the bits of each SID, who executes them, and the verdict.

function showLists() {
  pane("side", "lists", listPicks);
  drawLists();
}

// The lists by name, each with a box to tick.
function listPicks() {
  const shown = new Set(DATA.lists.slice(0, 2).map((_, number) => number));
  KIND.lists = shown;
  const rows = make("ul", { class: "rows short" });
  DATA.lists.forEach((list, number) => {
    const box = make("input", { type: "checkbox", id: `pick${number}` });
    box.checked = shown.has(number);
    box.addEventListener("change", () => {
      if (box.checked) {
        shown.add(number);
      } else {
        shown.delete(number);
      }
      drawLists();
    });
    const size = list.containers.length
      ? `${count(list.containers.length, "container")}, need ${list.need}` : "no list";
    rows.append(make("li", {}, make("label", {}, box, ` ${list.label}: ${size}`)));
  });
  return [make("h2", {}, count(DATA.lists.length, "list")), rows, make("p", { class: "soft" }, "Those that are ticked stand side by side.")];
}

function drawLists() {
  clearMap();
  KIND.broken = null;
  const shown = [...KIND.lists].sort((one, other) => one - other).map((number) => DATA.lists[number]);
  tell(
    ...(shown.length > 1 ? [comparison(shown)] : []),
    make("div", { class: "lists" }, ...shown.map((list) => listBox(list))),
    make("div", { id: "walker" }));
  if (shown.length) {
    markList(shown[0]);
  }
}

// What lists side by side come to, a row each; a column in which they differ has a sign.
function comparison(shown) {
  const has = (list, what) => (list.containers.length ? String(what) : "none");
  const columns = [
    ["Containers", "of 16 bytes", (list) => has(list, list.containers.length)],
    ["SIDs", "in all containers", (list) => has(list, list.sids.length)],
    ["Header", "bytes in front of the inner packet", (list) => has(list, list.header)],
    ["Need", "how often the hop limit is lowered up to the hand-over", (list) => has(list, list.need)],
    ["Walks", "over all choices among equal next hops, up to the hand-over", (list) => list.walks || has(list, "not counted")],
    ["Certificate", "its form, and what srv6 check says of it", (list) => `form ${list.form}: ${list.check}`],
  ].map(([name, what, tell]) => {
    const told = shown.map(tell);
    return { name, what, told, differs: told.some((one) => one !== told[0]) };
  });
  const look = (column) => (column.differs ? "differs" : null);
  return make("table", { id: "comparison" },
    make("thead", {}, make("tr", {}, make("td", {}), ...columns.map((column) => make("th", { scope: "col", class: look(column), title: column.what },
      `${column.differs ? "\u2260" : "="} ${column.name}`)))),
    make("tbody", {}, ...shown.map((list, at) => make("tr", {}, make("th", { scope: "row" }, list.label),
      ...columns.map((column) => make("td", { class: column.differs ? "mono differs" : "mono" }, column.told[at]))))));
}

// Marks on the map the nodes that execute a list's SIDs, and draws the walk of the packet along it.
function markList(list) {
  clearMap();
  if (list.walk >= 0) {
    drawWalk(DATA.walks[list.walk], -1);
  }
  for (const sid of list.sids) {
    if (sid.node >= 0) {
      mark(MAP.nodes[sid.node], "on");
    }
  }
  byId("legend").textContent = `${list.label}: nodes with a thick frame execute SIDs of the list; numbers are sends`;
}

function listBox(list) {
  const number = DATA.lists.indexOf(list);
  const box = make("article", { class: "list", id: `list${number}` }, make("h2", {}, list.label));
  const isGood = list.containers.length > 0 && !list.refusal;
  box.append(make("p", { class: isGood ? "verdict" : "verdict no" }, make("code", { class: "check" }, list.check), " ", list.verdict,
    list.refusal ? make("span", { class: "bad" }, ` ${list.refusal}.`) : null));
  box.append(make("p", {}, `From ${NET.nodes[list.headend] ? NET.nodes[list.headend].name : "?"}, ${list.inner} inside, ${list.mode} header: ${list.header} bytes in front, the hop limit ${list.hop_limit} is lowered ${count(list.need, "time")}.${list.walks ? ` Packets spread over ${count(list.walks, "walk")} up to the hand-over.` : ""}`),
    list.same ? make("p", { class: "same" }, `The same list as that of ${list.same}.`) : "");
  list.containers.forEach((container, at) => {
    const bar = make("div", { class: "bar", role: "img", "aria-label": `container ${at + 1}: ${container.address}` });
    for (const [from, bits, what, sid, digits] of container.bits) {
      const name = what === "sid" ? list.sids[sid].name : what === "block" ? "block" : "";
      const piece = make("span", {
        class: `bit ${what}${what === "sid" ? ` s${sid % 3} of${sid}` : ""}`, style: `flex:${bits} 1 ${digits.length * 0.62 + 0.6}em`,
        title: `bits ${from} to ${from + bits - 1}: ${digits}${what === "sid" ? `, SID ${sid + 1}, executed at ${name}` : ""}`,
      }, make("span", { class: "mono" }, what === "rest" && !/[^0]/.test(digits) ? "0" : digits), make("small", {}, what === "rest" ? `${bits} bits` : `${name} ${bits}`));
      if (what === "sid") {
        piece.addEventListener("click", () => pickSid(list, sid));
      }
      bar.append(piece);
    }
    box.append(make("div", {}, make("code", { class: "address" }, container.address), bar));
  });
  box.append(make("p", { class: "soft" }, "Steps of the intent:"),
    make("ol", { class: "steps soft" }, ...list.steps.map((one) => make("li", {}, one))));
  if (list.sids.length) {
    box.append(sidTable(list));
  }
  if (list.walk >= 0) {
    box.append(button("Walk a packet along it", () => {
      KIND.broken = null;
      showWalk(list.walk, 0);
      byId("walker").scrollIntoView({ block: "start" });
    }, { class: "along" }));
  }
  box.append(make("p", { class: "soft" }, `The certificate lists ${count(list.potentials, "state")}.`));
  return box;
}

function sidTable(list) {
  const rows = list.sids.map((sid, number) => {
    const moved = sid.stage >= 0 ? stageOf(DATA.walks[list.walk], sid.stage) : null;
    const done = `behind it ${count(sid.steps, "step")} done`;
    return make("li", { class: `of${number}` },
      button(sid.prefix, () => pickSid(list, number), { class: "plain mono" }), make("b", {}, ` at ${sid.name}`),
      `: ${sid.what}`, make("span", { class: "soft" }, ` (${sid.rfc}); ${done}`),
      make("div", { class: "becomes" }, moved ? moved.changed || moved.said : "executed before the first link"));
  });
  return make("ol", { class: "sids" }, ...rows);
}

// Marks a SID of a list: its bits, its row, and its node on the map.
function pickSid(list, number) {
  const box = byId(`list${DATA.lists.indexOf(list)}`);
  for (const old of document.querySelectorAll(".list .pick")) {
    old.classList.remove("pick");
  }
  for (const one of box.querySelectorAll(`.of${number}`)) {
    one.classList.add("pick");
  }
  clearMap();
  if (list.walk >= 0) {
    drawWalk(DATA.walks[list.walk], list.sids[number].stage);
  }
  if (list.sids[number].node >= 0) {
    mark(MAP.nodes[list.sids[number].node], "on");
  }
  byId("legend").textContent = `SID ${number + 1} of ${list.label}: ${list.sids[number].prefix} at ${list.sids[number].name}`;
  announce(byId("legend").textContent);
}
