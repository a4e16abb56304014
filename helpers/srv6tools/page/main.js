// The views, the search, the keys.

const VIEWS = [
  ["network", "Network", showNetwork, true],
  ["packets", "Packets", showPackets, DATA.groups.length > 0],
  ["lists", "Lists", showLists, DATA.lists.length > 0],
  ["whatif", "What-if", showTables, DATA.tables.length > 0],
];

function showView(name) {
  if (KIND.playing) {
    play();
  }
  KIND.view = name;
  KIND.broken = null;
  for (const tab of byId("tabs").children) {
    tab.toggleAttribute("aria-current", tab.dataset.view === name);
    if (tab.dataset.view === name) {
      tab.setAttribute("aria-current", "page");
    }
  }
  clearMap();
  leaveTables();
  tell();
  VIEWS.find((view) => view[0] === name)[2]();
  setBox(MAP.box);
}

function showNetwork() {
  tell(make("p", { class: "soft", id: "hint" }, "A click on a node or a link of the map, or in the list, tells of it here."));
  pane("side", "network", networkList);
}

// What stands beside the map of the network; it is made once.
function networkList() {
  const counts = Object.entries(NET.counts).filter(([, number]) => number).map(([what, number]) => `${number} ${what === "sids" ? "SIDs" : what}`);
  const nodes = make("ul", { class: "rows short" }, ...NET.nodes.map((node, number) => make("li", {},
    make("button", { type: "button", on: () => showNode(number), id: `row${number}` }, make("b", {}, node.name),
      make("span", { class: "soft mono" }, node.address)))));
  const links = make("details", {}, make("summary", {}, "Links"));
  links.addEventListener("toggle", () => {
    if (links.children.length === 1) {
      links.append(make("ul", { class: "rows short" }, ...NET.links.map((link, number) => make("li", {},
        make("button", { type: "button", on: () => showLink(number) }, linkWords(link).replace("link ", ""))))));
    }
  });
  return [make("h2", {}, NET.path), make("p", {}, `${counts.join(", ")}.`),
    NET.placed ? make("p", { class: "soft" }, `${NET.placed} positions are the file's own.`) : "",
    ...NET.blocks.map((one) => make("p", { class: "mono soft" }, `block ${one}`)),
    make("h3", {}, "Nodes"), nodes, links];
}

// A node with its SIDs and links; beside another view it stands above that one's details.
function showNode(number) {
  const node = NET.nodes[number];
  if (KIND.view === "network") {
    clearMap();
  }
  mark(MAP.nodes[number], "on");
  const sids = node.sids.map((place) => {
    const sid = NET.sids[place];
    return make("tr", {}, make("td", { class: "mono" }, sid.prefix), make("td", {}, sid.what), make("td", { class: "soft" }, sid.rfc));
  });
  const links = NET.links.map((link, place) => [link, place]).filter(([link]) => link.from === number || link.to === number);
  const box = [make("h2", {}, `${node.name} `, make("span", { class: "mono soft" }, node.address)),
    make("p", {}, `${count(node.routes, "route")}${node.allow.length ? `; takes the upper layers ${node.allow.join(", ")} at its SIDs` : ""}.`),
    sids.length ? make("table", { id: "nodesids" }, ...sids) : make("p", { class: "soft" }, "No SIDs."),
    make("p", {}, ...links.flatMap(([link, place]) => [button(linkLabel(link), () => showLink(place), { class: "plain" }), " "]))];
  putBox(box);
  announce(`node ${node.name}`);
}

function showLink(number) {
  const link = NET.links[number];
  if (KIND.view === "network") {
    clearMap();
  }
  markLinks([number], "on");
  putBox([make("h2", {}, link.name), make("p", {}, `${linkWords(link)}.`)]);
  announce(linkWords(link));
}

function putBox(parts) {
  if (KIND.view === "network") {
    tell(...parts);
    return;
  }
  const box = byId("nodebox") || make("div", { id: "nodebox" });
  box.replaceChildren(...parts);
  const shown = byId("detail").querySelector(".pane.shown");
  shown.prepend(box);
  shown.scrollTop = 0;
}

// ---- search

function search(text) {
  const wanted = text.trim().toLowerCase();
  const found = [];
  const take = (name, kind, on) => {
    if (name.toLowerCase().includes(wanted)) {
      found.push([name, kind, on, name.toLowerCase().startsWith(wanted) ? 0 : 1]);
    }
  };
  if (wanted) {
    NET.nodes.forEach((node, number) => take(node.name, "node", () => { showNode(number); centre(number); }));
    NET.links.forEach((link, number) => take(link.name, "link", () => { showLink(number); centre(link.from); }));
    NET.sids.forEach((sid) => take(sid.prefix, `SID of ${NET.nodes[sid.node].name}`, () => { showNode(sid.node); centre(sid.node); }));
  }
  found.sort((one, other) => one[3] - other[3]);
  return found;
}

function showFound() {
  const list = byId("found");
  const found = search(byId("search").value);
  list.replaceChildren(...found.slice(0, 40).map(([name, kind, on]) => make("li", {}, button(`${name} (${kind})`, () => {
    on();
    list.hidden = true;
  }))));
  if (byId("search").value && !found.length) {
    list.append(make("li", { class: "soft" }, "Nothing has such a name."));
  }
  list.hidden = !byId("search").value;
}

function listenToSearch() {
  const field = byId("search");
  field.addEventListener("input", showFound);
  field.addEventListener("keydown", (event) => {
    if (event.key === "Enter") {
      const found = search(field.value);
      if (found.length) {
        found[0][2]();
        byId("found").hidden = true;
      }
    } else if (event.key === "Escape") {
      field.value = "";
      byId("found").hidden = true;
      field.blur();
    }
  });
}

// ---- keys

function turnTheme() {
  const root = document.documentElement;
  root.dataset.theme = root.dataset.theme === "dark" ? "light" : "dark";
}

const KEYS = {
  "/": () => byId("search").focus(), "+": () => zoom(0.8), "=": () => zoom(0.8), "-": () => zoom(1.25),
  0: () => setBox(MAP.whole), t: turnTheme, "?": () => byId("keys").showModal(), " ": play,
  f: () => { if (KIND.walk >= 0 && DATA.walks[KIND.walk].fan >= 0) { toggleFan(); } },
  ArrowLeft: () => step(-1), ArrowRight: () => step(1), ArrowUp: () => nextPacket(-1), ArrowDown: () => nextPacket(1),
  Home: () => step(-1e6), End: () => step(1e6),
};
const PANS = { ArrowLeft: [-1, 0], ArrowRight: [1, 0], ArrowUp: [0, -1], ArrowDown: [0, 1] };

function listenToKeys() {
  document.addEventListener("keydown", (event) => {
    const own = event.target.closest("input, select, textarea, dialog[open]");
    if (own || event.ctrlKey || event.metaKey || event.altKey) {
      return;
    }
    if (event.key === " " && event.target.closest("button, [role=button], summary, a")) {
      return;
    }
    const number = Number(event.key);
    if (event.shiftKey && PANS[event.key]) {
      const [x, y] = PANS[event.key];
      pan(x * MAP.box[2] * 0.1, y * MAP.box[3] * 0.1);
    } else if (number >= 1 && number <= 4 && VIEWS[number - 1][3]) {
      showView(VIEWS[number - 1][0]);
    } else if (KEYS[event.key]) {
      KEYS[event.key]();
    } else {
      return;
    }
    event.preventDefault();
  });
}

function begin() {
  const media = window.matchMedia("(prefers-color-scheme: dark)");
  document.documentElement.dataset.theme = media.matches ? "dark" : "light";
  byId("title").textContent = DATA.title;
  for (const [name, label, , isThere] of VIEWS) {
    if (isThere) {
      byId("tabs").append(button(label, () => showView(name), { "data-view": name, id: `tab-${name}` }));
    }
  }
  drawMap();
  listenToMap();
  listenToSearch();
  listenToKeys();
  listenToPrint();
  byId("detail").addEventListener("focus", () => byId("detail").querySelector(".pane.shown").focus()); // which is what scrolls
  byId("theme").addEventListener("click", turnTheme);
  byId("help").addEventListener("click", () => byId("keys").showModal());
  const first = ["whatif", "packets", "lists", "network"].find((name) => VIEWS.find((view) => view[0] === name)[3]);
  showView(first);
  document.documentElement.dataset.ready = "yes";
}

begin();
