// The run: its steps as they were put into this page, and the state after any of them.
//
// A step has `line`, the proved listing's; `difference`, what is said where the second program's line is another; `call`, as a
// line of text; `bill`, what its units were paid for; `said`, the comments of the text; and what the call changed: `shares` of a
// fresh state, `granted` fuel, and the entry that `joins`, that `leaves` or that `becomes` something. No rule of the locks
// is followed here: the changes are.

const byId = (id) => document.getElementById(id);

const run = JSON.parse(byId("data").textContent);
const steps = run.steps;
const last = steps.length;

// An element with its attributes and what stands in it.
function element(tag, attributes, ...children) {
  return filled(document.createElement(tag), attributes, children);
}

function svgElement(tag, attributes, ...children) {
  return filled(document.createElementNS("http://www.w3.org/2000/svg", tag), attributes, children);
}

function filled(made, attributes, children) {
  for (const [name, value] of Object.entries(attributes)) made.setAttribute(name, value);
  made.append(...children);
  return made;
}

// Scrolls a box, and nothing around it, so that a part of it can be seen.
function bringIntoSight(box, top, height) {
  if (top < box.scrollTop) box.scrollTop = top - height / 2;
  if (top + height > box.scrollTop + box.clientHeight) box.scrollTop = top + 1.5 * height - box.clientHeight;
}

// The first of these boxes on whose letters those of another would lie: they are less high than a box, and have a border.
function boxUnder(boxes, { x, y, width, height }) {
  return boxes.find((other) =>
    x < other.x + other.width + 2 && other.x < x + width + 2 && y + 3 < other.y + other.height && other.y + 3 < y + height);
}

// The fields of the proved line of a step, or none.
function fieldsOf(step) {
  const [number, call, answer, burnt, left] = (step.line || "").split(" ");
  return { number, call, answer, burnt, left };
}

// The name in an answer such as `blocked:2.1@10`.
function nameIn(answer) {
  const found = /^[a-z]+:(\d+\.\d+)/.exec(answer || "");
  return found && found[1];
}

// The number of a refusal, or nothing.
function refusalOf(answer) {
  const found = /^refused:(\d+)$/.exec(answer || "");
  return found && Number(found[1]);
}

// A call with its numbers, from its line of text; nothing where the file has no record.
function callOf(step) {
  if (!step.call) return null;
  const [kind, ...words] = step.call.split(" ");
  const call = { kind, reads: [], writes: [], awaited: 0 };
  if (kind === "open") return { ...call, shares: words.map(Number) };
  if (kind === "pick") return call;
  call.tenant = Number(words[0]);
  if (kind === "grant") call.amount = Number(words[1]);
  else if (kind === "begin") readParts(call, words.slice(1));
  else if (kind !== "scan") call.name = `${words[0]}.${words[1]}`;
  return call;
}

function readParts(call, words) {
  let part = "";
  for (const word of words) {
    if (/^[a-z]/.test(word)) part = word;
    else if (part === "awaited") call.awaited = Number(word);
    else call[part].push(Number(word));
  }
}

function unopened() {
  return { step: 0, queue: [], tanks: [] };
}

// The state after one more step. Entries are not changed but replaced, so that a state that was handed out stays.
function advance(state) {
  const step = steps[state.step];
  const next = { step: state.step + 1, queue: state.queue, tanks: state.tanks };
  if (step.shares) {
    next.queue = [];
    next.tanks = step.shares.map((share, at) => ({ tenant: at + 1, share, granted: 0, burnt: 0 }));
  }
  if (step.joins) next.queue = [...state.queue, { ...step.joins, name: `${step.joins.tenant}.${step.joins.serial}` }];
  if (step.leaves !== undefined) next.queue = state.queue.filter((_, place) => place !== step.leaves);
  if (step.becomes) {
    const [place, mode, due] = step.becomes;
    next.queue = state.queue.map((entry, at) => (at === place ? { ...entry, state: mode, due } : entry));
  }
  const paid = priceOf(step);
  const granted = step.granted || 0;
  if (paid + granted > 0) {
    const { tenant } = callOf(step);
    next.tanks = next.tanks.map((tank) =>
      tank.tenant === tenant ? { ...tank, granted: tank.granted + granted, burnt: tank.burnt + paid } : tank);
  }
  return next;
}

let reached = unopened();

// The state after so many steps. The last one asked for is kept: the next is mostly the one behind it.
function stateAfter(count) {
  if (count < reached.step) reached = unopened();
  while (reached.step < count) reached = advance(reached);
  return reached;
}

function entryNamed(state, name) {
  return state.queue.find((entry) => entry.name === name);
}

// What a tenant has left, or nothing for a number that is no tenant.
function fuelOf(state, tenant) {
  const tank = state.tanks.find((known) => known.tenant === tenant);
  return tank ? tank.granted - tank.burnt : null;
}

function priceOf(step) {
  return (step.bill || []).reduce((total, [, units]) => total + units, 0);
}

// What a step's units were paid for, part by part: a look at each entry is a part of its own.
function billOf(step, before) {
  const parts = [];
  for (const [word, units, entries] of step.bill || []) {
    if (word !== "looks") parts.push({ word, units });
    else for (const entry of before.queue.slice(0, entries)) parts.push({ word: "look", units: entry.look, entry });
  }
  return parts;
}

// At how many entries a step looked.
function looksOf(step) {
  const looks = (step.bill || []).find(([word]) => word === "looks");
  return looks ? looks[2] : 0;
}

// The records on which two requests conflict: written by one of them, and read or written by the other.
function clashes(one, other) {
  const both = one.writes.filter((record) => other.writes.includes(record) || other.reads.includes(record));
  const read = one.reads.filter((record) => other.writes.includes(record));
  return [...both, ...read].sort((low, high) => low - high);
}

// The entries, of those given, that an entry conflicts with, each with the records.
function conflictsOf(entry, others) {
  const found = others.map((other) => ({ other, records: clashes(entry, other) }));
  return found.filter(({ records }) => records.length > 0);
}

// Of an entry of the queue: whom ahead it conflicts with, and whom behind.
function conflictsIn(queue, entry) {
  const place = queue.indexOf(entry);
  return { ahead: conflictsOf(entry, queue.slice(0, place)), behind: conflictsOf(entry, queue.slice(place + 1)) };
}

let whole = null;

// What became of every request and every tank, from the first step to the last.
function wholeRun() {
  whole = whole || followed();
  return whole;
}

// A request's `states` begin at the steps told, and it has left at step `to`. A tenant's requests stand in as many rows as it had
// places in use at once.
function followed() {
  const requests = [];
  const queued = new Map();
  const fuel = new Map();
  let state = unopened();
  for (let at = 1; at <= last; at += 1) {
    const before = state;
    state = advance(before);
    const { joins, leaves, becomes } = steps[at - 1];
    if (joins) {
      const { name, tenant, state: mode } = state.queue[state.queue.length - 1];
      const request = { name, tenant, row: freeRow(queued, tenant), from: at, to: last + 1, states: [[at, mode]] };
      requests.push(request);
      queued.set(name, request);
    }
    if (becomes) noteState(queued.get(before.queue[becomes[0]].name), at, becomes[1]);
    if (leaves !== undefined) {
      const { name } = before.queue[leaves];
      queued.get(name).to = at;
      queued.delete(name);
    }
    for (const tank of state.tanks) noteFuel(fuel, at, tank);
  }
  return { requests, fuel };
}

function freeRow(queued, tenant) {
  const taken = [...queued.values()].filter((request) => request.tenant === tenant).map(({ row }) => row);
  let row = 0;
  while (taken.includes(row)) row += 1;
  return row;
}

// An answer that is delivered changes what is due, and not always the state.
function noteState({ states }, at, mode) {
  if (states[states.length - 1][1] !== mode) states.push([at, mode]);
}

// A tenant's fuel is noted where it changes.
function noteFuel(fuel, at, { tenant, share, granted, burnt }) {
  if (share + granted === 0) return;
  if (!fuel.has(tenant)) fuel.set(tenant, []);
  const noted = fuel.get(tenant);
  const left = granted - burnt;
  if (noted.length === 0 || noted[noted.length - 1][1] !== left) noted.push([at, left]);
}
