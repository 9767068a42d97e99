// The tanks with the places, and the counters Cx and Cs as two grids.

const RECORDS = 256;
const ACROSS = 16;
const COUNTERS_SAID = 16; // of more than these the grid alone tells

// A tenant is shown once it has a share or fuel; the one that the call names is marked.
function showTanks({ tanks, queue }, named, asking) {
  const known = tanks.filter(({ share, granted }) => share + granted > 0);
  const title = known.length > 0 ? "Tanks and places" : "No tenant has a place or fuel";
  byId("tanks-name").textContent = asking ? `${title} before the call` : title;
  byId("tanks").replaceChildren(...known.map((tank) => tankItem(tank, queue, tank.tenant === named)));
  const marked = byId("tanks").querySelector(".touched");
  if (marked) bringIntoSight(byId("tanks"), marked.offsetTop, marked.offsetHeight);
}

function tankItem({ tenant, share, granted, burnt }, queue, touched) {
  const left = granted - burnt;
  const held = queue.filter((entry) => entry.tenant === tenant).length;
  const part = granted === 0 ? 0 : (100 * left) / granted;
  const seats = Array.from({ length: share }, (_, at) => element("span", { class: at < held ? "seat held" : "seat" }));
  const number = (name, value) => element("span", { class: name }, `${name} `, element("b", {}, value.toLocaleString("en")));
  return element("li", { class: touched ? "tank touched" : "tank", "data-tenant": tenant },
    element("span", { class: "tenant" }, `tenant ${tenant}`), " ",
    element("span", { class: "fuel", "aria-hidden": "true" }, element("span", { class: "full", style: `width: ${part}%` })), " ",
    element("span", { class: "numbers" }, number("granted", granted), " ", number("burnt", burnt), " ", number("left", left)), " ",
    element("span", { class: "places" }, element("span", { class: "seats" }, ...seats), ` places ${held} of ${share}`));
}

const grids = { cx: grid("cx"), cs: grid("cs") };

// The cells of a grid, record 0 first, behind a row and a column that number them.
function grid(id) {
  const cells = Array.from({ length: RECORDS }, (_, record) => element("span", { class: "cell", "data-record": record }));
  const edge = (number) => element("span", { class: "edge" }, number);
  byId(id).append(edge(""), ...Array.from({ length: ACROSS }, (_, at) => edge(`+${at}`)));
  for (let at = 0; at < RECORDS; at += ACROSS) byId(id).append(edge(`${at}`), ...cells.slice(at, at + ACROSS));
  return cells;
}

// The counters of a queue; the records of the entry that the call is about are marked.
function showCounters(queue, touched, asking) {
  byId("counters-name").textContent = asking ? "Counters before the call" : "Counters";
  showCounter("cx", "Cx, how many write it", queue.flatMap(({ writes }) => writes), touched.writes);
  showCounter("cs", "Cs, how many read it", queue.flatMap(({ reads }) => reads), touched.reads);
}

function showCounter(id, name, records, touched) {
  const counts = new Array(RECORDS).fill(0);
  for (const record of records) counts[record] += 1;
  grids[id].forEach((cell, record) => {
    const count = counts[record];
    cell.textContent = count === 0 ? "" : `${count}`;
    cell.className = `cell${count > 0 ? " raised" : ""}${touched.includes(record) ? " touched" : ""}`;
    cell.title = `record ${record}: ${count}`;
  });
  const raised = counts.flatMap((count, record) => (count > 0 ? [`${record}=${count}`] : []));
  const more = raised.length - COUNTERS_SAID;
  const words = raised.slice(0, COUNTERS_SAID).join(" ") + (more > 0 ? ` and ${more} more` : "");
  byId(`${id}-said`).textContent = `${name}: ${words || "all 0"}`;
}
