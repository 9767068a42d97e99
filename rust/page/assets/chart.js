// The whole run: a bar for each request from its admission to its leaving, in the rows of its tenant's places, and below them
// the fuel of each tenant. What is true after a step stands in that step's column.

const GUTTER = 36; // left of the columns, for the tenants' numbers
const BARS_HEIGHT = 320; // at most, unless the rows would be too thin to see
const FUEL_HEIGHT = 110;
const BELOW = 22; // for the steps' numbers

const chart = { plot: null, cursor: null, cover: null, width: 0 };

function columnStart(at) {
  return GUTTER + ((at - 1) * (chart.width - GUTTER)) / last;
}

// Draws the chart as wide as its place is.
function drawChart() {
  const { requests, fuel } = wholeRun();
  const place = byId("drawing");
  chart.width = place.clientWidth;
  const rows = rowsOf(requests);
  const rowHeight = Math.max(6, Math.min(20, Math.round(BARS_HEIGHT / Math.max(1, rows.count))));
  const fuelTop = rows.count * rowHeight + 20;
  const height = fuelTop + FUEL_HEIGHT + 4;
  const top = (row) => row * rowHeight + 4;
  const numbers = [...rows.first].map(([tenant, row]) => tick(`t${tenant}`, GUTTER - 6, top(row) + rowHeight * 0.7));
  const bars = requests.map((request) => bar(request, top(rows.first.get(request.tenant) + request.row), rowHeight - 3));
  chart.cursor = svgElement("rect", { class: "cursor", y: 0, height });
  chart.cover = svgElement("rect", { class: "cover", y: 0, height });
  chart.plot = svgElement("svg", { width: chart.width, height: height + BELOW, "aria-hidden": "true" },
    patterns(), ...numbers, ...stepNumbers(height + 14), ...bars, ...fuelLines(fuel, fuelTop), chart.cover, chart.cursor);
  place.replaceChildren(chart.plot);
  thinOut(chart.plot.querySelectorAll(".tick, .number"));
  showLegend(fuel);
}

// Of numbers that would lie on each other the first stays, and none that would be cut off.
function thinOut(numbers) {
  const kept = [];
  for (const [number, box] of [...numbers].map((found) => [found, found.getBBox()])) {
    if (boxUnder(kept, box) || box.x + box.width > chart.width) number.remove();
    else kept.push(box);
  }
}

// The rows of the tenants, each as many as it had places in use at once.
function rowsOf(requests) {
  const most = new Map();
  for (const { tenant, row } of requests) most.set(tenant, Math.max(most.get(tenant) || 0, row + 1));
  const rows = { count: 0, first: new Map() };
  for (const tenant of [...most.keys()].sort((one, other) => one - other)) {
    rows.first.set(tenant, rows.count);
    rows.count += most.get(tenant);
  }
  return rows;
}

function tick(words, x, y) {
  return svgElement("text", { class: "tick", x, y }, words);
}

// Numbers below the columns, as many as there is room for, in round distances.
function stepNumbers(y) {
  const room = (chart.width - GUTTER) / 48;
  const wanted = last / room;
  const power = 10 ** Math.floor(Math.log10(Math.max(1, wanted)));
  const distance = [1, 2, 5, 10].map((factor) => factor * power).find((found) => found >= wanted) || 1;
  const numbers = [];
  for (let at = distance; at <= last; at += distance) numbers.push(at);
  return numbers.map((at) => {
    const number = tick(`${at}`, (columnStart(at) + columnStart(at + 1)) / 2, y);
    number.classList.add("below");
    return number;
  });
}

// States differ by more than their colour: what waits is dotted, what is blocked is hatched.
function patterns() {
  const tile = (state, ...inside) =>
    svgElement("pattern", { id: `bar-${state}`, width: 6, height: 6, patternUnits: "userSpaceOnUse" },
      svgElement("rect", { class: "ground", width: 6, height: 6 }), ...inside);
  return svgElement("defs", {},
    tile("free"),
    tile("waiting", svgElement("circle", { class: "ink", cx: 3, cy: 3, r: 1.2 })),
    tile("blocked", svgElement("path", { class: "ink", d: "M-1 1L1 -1M0 6L6 0M5 7L7 5" })));
}

function bar({ name, from, to, states }, y, height) {
  const told = states.map(([at, state]) => `${WORD[state]} from step ${at}`).join(", ");
  const gone = to > last ? "" : `, gone at step ${to}`;
  const made = svgElement("g", { class: "request", "data-name": name }, svgElement("title", {}, `${name}: ${told}${gone}`));
  states.forEach(([at, state], part) => {
    const end = part + 1 < states.length ? states[part + 1][0] : to;
    const [x, right] = [columnStart(at), columnStart(end) - (end === to ? 1 : 0)];
    made.append(svgElement("rect", { class: state, x, y, width: Math.max(0.7, right - x), height }));
  });
  if (columnStart(to) - columnStart(from) > 11 * name.length && height > 10) {
    made.append(svgElement("text", { class: "inside", x: columnStart(from) + 4, y: y + height / 2 + 4 }, name));
  }
  return made;
}

// A line for each tenant, with its number where it first has fuel, if ever and if there is room: the legend names them all.
function fuelLines(fuel, top) {
  const most = [...fuel.values()].flat().reduce((high, [, left]) => Math.max(high, left), 1);
  const height = (left) => top + FUEL_HEIGHT * (1 - left / most);
  const line = ([tenant, noted]) => {
    const parts = noted.map(([at, left], part) => {
      const end = part + 1 < noted.length ? noted[part + 1][0] : last + 1;
      return `${columnStart(at).toFixed(1)} ${height(left).toFixed(1)}H${columnStart(end).toFixed(1)}`;
    });
    return svgElement("path", { class: `fuel tenant-${tenant}`, d: `M${parts.join("L")}` });
  };
  const number = ([tenant, noted]) => noted.filter(([, left]) => left > 0).slice(0, 1).map(([at, left]) =>
    svgElement("text", { class: `number tenant-${tenant}`, x: columnStart(at) + 2, y: height(left) - 3 }, `t${tenant}`));
  const axis = svgElement("path", { class: "axis", d: `M${GUTTER} ${height(0)}H${chart.width}` });
  const short = most < 100000 ? `${most}` : most.toExponential(0).replace("e+", "e");
  const ticks = [tick("0", GUTTER - 6, height(0) + 4), tick(short, GUTTER - 6, height(most) + 6)];
  return [axis, ...ticks, ...[...fuel].map(line), ...[...fuel].flatMap(number)];
}

// Whose line is whose, and which state is which.
function showLegend(fuel) {
  const entry = (kind, words) => element("li", {}, element("span", { class: kind }), words);
  byId("legend").replaceChildren(
    ...Object.entries(WORD).map(([state, word]) => entry(`swatch ${state}`, word)),
    ...[...fuel.keys()].map((tenant) => entry(`stroke tenant-${tenant}`, `t${tenant}, fuel of tenant ${tenant}`)));
}

// Puts the cursor on the step. From the first hidden one on, the chart is covered.
function markChart() {
  if (!chart.plot) return;
  const wide = columnStart(shown + 1) - columnStart(shown);
  chart.cursor.setAttribute("x", columnStart(shown) - Math.max(0, 2 - wide) / 2);
  chart.cursor.setAttribute("width", Math.max(2, wide));
  // At the border a line already turns to where it goes.
  const covered = hiddenStep() > last ? chart.width : columnStart(hiddenStep()) - 2;
  chart.cover.setAttribute("x", covered);
  chart.cover.setAttribute("width", chart.width - covered);
  byId("chart-said").textContent = chartWords();
}

function chartWords() {
  const { requests } = wholeRun();
  const gone = requests.filter(({ to }) => to <= last).length.toLocaleString("en");
  const told = `${counted(requests.length, "request")} admitted, ${gone} gone at the end.`;
  const parts = "Above, a bar for each request, in the rows of its tenant's places; below, the fuel of each tenant.";
  return `${parts} ${hiddenStep() > last ? told : "What comes is covered."} Click to go to a step.`;
}

// The step whose column is under a click; left of the columns, none.
function stepUnder(event) {
  const across = event.clientX - chart.plot.getBoundingClientRect().left - GUTTER;
  return across < 0 ? shown : Math.floor((across * last) / (chart.width - GUTTER)) + 1;
}
