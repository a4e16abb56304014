// Failures by intents: a table to be seen at once, and the walk that breaks.

const SIGNS = { kept: "=", other: "\u2260", none: "\u2715", refused: "!" };

const MOST_COLUMNS = 32; // of a table; one with more intents is shown in pieces, one below the other

const HEAT = { // made once, and laid out once: tables may have thousands of cells
  box: make("div", { class: "heatbox" }, ...DATA.tables.flatMap(heatTables)),
  beside: make("div", {}), // what a cell tells
};

function showTables() {
  pane("side", "whatif", () => DATA.tables.flatMap(tableSums));
  HEAT.beside.replaceChildren(
    make("p", { id: "cellsaid", class: "soft" }, "A click on a cell shows its walk here."), make("div", { id: "walker" }));
  pane("detail", "tables", () => [make("div", { class: "split" }, HEAT.box, HEAT.beside)]);
  byId("legend").textContent = "A click on a cell shows the failure and the walk there";
}

// What the signs of a table mean, and how many cells have each.
function tableSums(table) {
  const counts = {};
  for (const row of table.failures) {
    for (const cell of row.cells) {
      counts[cell.state] = (counts[cell.state] || 0) + 1;
    }
  }
  return [make("h2", {}, `${count(table.failures.length, "failure")}, ${count(table.intents.length, "intent")}`),
    make("table", { class: "heat" }, ...Object.entries(table.states).map(([state, what]) => make("tr", {},
      make("td", {}, make("button", { type: "button", class: state, tabindex: "-1", disabled: true }, `${SIGNS[state]} ${counts[state] || 0}`)),
      make("td", { class: "what" }, what)))),
    make("p", { class: "soft" }, "In a cell: the sign, the containers and the need of the list that is the least one then, and what becomes of a packet that still has the list from before (\u00d7 where it is lost): at first, while routes are the old ones and only next hops are left out that are gone, and later, once routes are found anew.")];
}

// Takes away what cells and nodes told beside the tables, which stay.
function leaveTables() {
  leaveCell();
  HEAT.beside.replaceChildren();
  const box = byId("nodebox");
  if (box) {
    box.remove();
  }
}

function leaveCell() {
  const old = HEAT.box.querySelector('.cell[aria-current="true"]');
  if (old) {
    old.removeAttribute("aria-current");
  }
}

function heatTables(table, place) {
  const pieces = Math.max(1, Math.ceil(table.intents.length / MOST_COLUMNS));
  return Array.from({ length: pieces }, (_, at) => heatTable(table, place, at * MOST_COLUMNS));
}

// The columns of a table from one on, whose rows are laid out once they are seen, so that columns have widths by the names above them.
function heatTable(table, place, first) {
  const intents = table.intents.slice(first, first + MOST_COLUMNS);
  const isPiece = intents.length < table.intents.length;
  const widths = [["without", ...table.failures.map((failure) => failure.name)], ...intents.map((intent) => [intent])]
    .map((names) => Math.max(...names.map((name) => name.length)));
  const columns = widths.map((letters, at) => `${Math.max(at ? 5.2 : 4, Math.min(letters * 0.56 + 1, 18)).toFixed(1)}em`);
  const head = make("tr", {}, make("th", { scope: "col" }, "without"),
    ...intents.map((intent) => make("th", { scope: "col", title: intent }, intent)));
  const rows = table.failures.map((failure, row) => make("tr", {}, make("th", { scope: "row", title: failure.name }, failure.name),
    ...intents.map((_, column) => make("td", {}, cellButton(table, place, row, first + column)))));
  const heat = make("table", {
    class: "heat", style: `--columns: ${columns.join(" ")}`,
    "aria-label": isPiece ? `intents ${first + 1} to ${first + intents.length} of ${table.intents.length}` : null,
  }, make("thead", {}, head), make("tbody", {}, ...rows));
  heat.addEventListener("click", (event) => {
    const cell = event.target.closest(".cell");
    if (cell) {
      showCell(...cell.id.slice("cell".length).split("-").map(Number));
    }
  });
  heat.addEventListener("mouseover", (event) => {
    const cell = event.target.closest(".cell");
    if (cell) {
      cell.title = cell.getAttribute("aria-label");
    }
  });
  return heat;
}

function cellButton(table, place, row, column) {
  const cell = table.failures[row].cells[column];
  const size = cell.containers === null ? "" : ` ${cell.containers}/${cell.need}`;
  const [told, lost] = whatBecomes(cell);
  const ends = [["at first", cell.at_once], ["later", cell.traffic]].filter(([, one]) => one).map(([when, one]) => `; packet ${when}: ${one.end}`);
  const label = `without ${table.failures[row].name}, ${table.intents[column]}: ${table.states[cell.state]}, ${cell.answer}${ends.join("")}`;
  return make("button", {
    type: "button", class: `cell ${cell.state}`, id: `cell${place}-${row}-${column}`, "aria-label": label,
  }, `${SIGNS[cell.state]}${size}`, make("small", { class: lost ? "bad" : "" }, told));
}

// What becomes of a packet with the list from before, in two or three words, and whether it is ever lost.
function whatBecomes({ at_once: first, traffic: later }) {
  const isLost = [first, later].map((one) => one !== null && !one.arrives);
  const words = isLost[0] && later && !isLost[1] ? "\u00d7 at first" : isLost[1] && first && !isLost[0] ? "\u00d7 later" : "\u00d7 lost";
  return isLost.includes(true) ? [words, true] : [first || later ? "arrives" : "\u00a0", false];
}

function showCell(place, row, column) {
  const table = DATA.tables[place];
  const failure = table.failures[row];
  const cell = failure.cells[column];
  leaveCell();
  byId(`cell${place}-${row}-${column}`).setAttribute("aria-current", "true");
  KIND.broken = failure;
  const why = cell.why ? ` ${cell.why}.` : "";
  const largest = cell.largest_inner === null ? "" : ` The largest inner packet has ${cell.largest_inner} bytes.`;
  const said = `Without ${failure.name}, ${table.intents[column]}: ${table.states[cell.state]} (${cell.answer}).${why}${largest}`;
  announce(said);
  byId("cellsaid").replaceChildren(said, ...whenButtons(cell));
  byId("cellsaid").classList.remove("soft");
  const breaks = [cell.at_once, cell.traffic].find((one) => one && !one.arrives && one.walk >= 0);
  const shown = breaks || [cell.traffic, cell.at_once].find((one) => one && one.walk >= 0);
  if (shown) {
    showTraffic(shown);
  } else {
    clearMap();
    markFailure(failure);
    byId("walker").replaceChildren();
  }
}

// Of a cell with two walks, the one at first and the one once routes are found anew: a button for each.
function whenButtons(cell) {
  const both = [["at first", cell.at_once], ["later", cell.traffic]].filter(([, one]) => one && one.walk >= 0);
  return both.length < 2 ? [] : both.flatMap(([when, one]) => [" ", button(`${endSign(one.arrives ? "left" : "")} ${when}`, () => showTraffic(one),
    { class: "when", "data-walk": one.walk, title: `The walk ${when}: ${one.end}` })]);
}

function showTraffic(traffic) {
  showWalk(traffic.walk, traffic.arrives ? 0 : DATA.walks[traffic.walk].stages.length - 1);
  for (const one of byId("cellsaid").querySelectorAll(".when")) {
    one.setAttribute("aria-pressed", String(Number(one.dataset.walk) === traffic.walk));
  }
}
