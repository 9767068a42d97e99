// A step in words: the call, what its answer means, and its price as a sum.

const WORD = { free: "Free", waiting: "Waiting", blocked: "Blocked" };
const TENANT_CALLS = ["begin", "finish", "recheck", "scan", "cancel"];

// The rows of the refusals' table, of an event file too. Where a number means one thing of one call and another of the next,
// the call stands before it.
const ROWS = {
  1: "the tenant number is not 1 to 16",
  2: "dry: the tenant has no fuel",
  3: "more than 8 reads, or more than 8 writes, as they are given",
  4: "the writes, or the reads without those that are written, do not strictly rise",
  6: "more than 15 awaited answers",
  7: "the tenant holds as many places as its share",
  8: "the tenant has been given all 65,535 serials",
  9: "the fuel is below the price",
  "scan 9": "the fuel is below the next entry's 1 + n: the search ends before it",
  10: "the tenant has no such entry in the queue",
  "finish 11": "the entry is not Free",
  11: "the entry is not Blocked",
  12: "no answer is due",
  13: "the tenant's fuel would pass 1,000,000,000",
  14: "not exactly 16 shares, or more than 64 places in all",
  20: "the tag is not 01 to 09 or 0B",
  21: "one or two bytes are left, or the body goes past the end",
  22: "the length does not suit the tag; of begin, it is below 3, or the reads are more than it has room for",
  23: "the first record is not open, or a later one is",
  24: "the file has more than 65,536 bytes: told as record 1, before any other",
};

function rowWords(kind, number) {
  return ROWS[`${kind} ${number}`] || ROWS[number] || "a number that the table does not have";
}

const LISTED_AT_MOST = 20;

function counted(number, thing) {
  return `${number.toLocaleString("en")} ${thing}${number === 1 ? "" : "s"}`;
}

// `7`, `7 and 9`, `7, 9 and 12`; of a long list the first ones.
function listed(items, word = "and") {
  const shown = items.slice(0, LISTED_AT_MOST);
  const more = items.length - shown.length;
  const parts = more > 0 ? [...shown, `${more.toLocaleString("en")} more`] : shown;
  if (parts.length < 2) return parts.join("");
  return `${parts.slice(0, -1).join(", ")} ${word} ${parts[parts.length - 1]}`;
}

function recordsListed(records) {
  return `${records.length === 1 ? "record" : "records"} ${listed(records)}`;
}

// Whom a request conflicts with, and on which records.
function withWhom(conflicts) {
  return listed(conflicts.map(({ other, records }) => `${other.name} on ${recordsListed(records)}`));
}

// The call as it is made: whether it is refused is not said.
function callWords(call) {
  switch (call.kind) {
    case "open": return `The host asks for a fresh state with ${sharesWords(call.shares)}.`;
    case "grant": return `The host asks to grant ${counted(call.amount, "unit")} of fuel to tenant ${call.tenant}.`;
    case "begin": return `Tenant ${call.tenant} asks to begin a request that ${locksWords(call)}.`;
    case "finish": return `Tenant ${call.tenant} asks to finish ${call.name}.`;
    case "recheck": return `Tenant ${call.tenant} asks for a Recheck of ${call.name}.`;
    case "scan": return `Tenant ${call.tenant} asks for a Scan, a search for a request of its own that can be promoted.`;
    case "cancel": return `Tenant ${call.tenant} asks to cancel ${call.name}.`;
    case "pick": return "The host asks to Pick the front.";
    case "deliver": return `The host has an answer for ${call.name}.`;
    default: return `The host asks to evict ${call.name}.`;
  }
}

// `2 places for tenant 1 and 4 for each of tenants 2 to 5`.
function sharesWords(shares) {
  const groups = [];
  shares.forEach((share, at) => {
    const group = groups[groups.length - 1];
    if (group && group.share === share) group.to = at + 1;
    else groups.push({ share, from: at + 1, to: at + 1 });
  });
  const words = groups.filter(({ share }) => share > 0).map(({ share, from, to }) => {
    const several = `each of tenants ${from} ${to === from + 1 ? "and" : "to"} ${to}`;
    return `${counted(share, "place")} for ${from === to ? `tenant ${from}` : several}`;
  });
  return words.length > 0 ? listed(words) : "no place for anybody";
}

function locksWords({ reads, writes, awaited }) {
  const parts = [];
  if (reads.length > 0) parts.push(`reads ${listed(reads)}`);
  if (writes.length > 0) parts.push(`writes ${listed(writes)}`);
  if (parts.length === 0) parts.push("names no record");
  if (awaited > 0) parts.push(`awaits ${counted(awaited, "answer")}`);
  return parts.join(", ");
}

// What the answer of a step means, given the state before the call and after it.
function meaningOf(step, call, before, after) {
  const { answer } = fieldsOf(step);
  const refusal = refusalOf(answer);
  if (refusal !== null) return refusedWords(call, refusal, before);
  if (!call) return "";
  const entry = entryNamed(after, nameIn(answer));
  switch (call.kind) {
    case "open": return "The queue is empty, all counters are 0, and nobody has fuel.";
    case "grant": return `The fuel is in the tank of tenant ${call.tenant}.`;
    case "begin": return beginWords(call, entry, after.queue);
    case "finish":
    case "cancel":
    case "evict": return leftWords(call, before);
    case "recheck": return answer === "still" ? stillWords(call, after) : aloneWords(entry);
    case "scan": return entry ? foundWords(entry) : nothingFound(call, after.queue);
    case "pick": return entry ? frontWords(entry) : nothingPicked(after.queue);
    default: return deliverWords(entry);
  }
}

function refusedWords(call, number, before) {
  if (!call) return `Refusal ${number}: ${rowWords("file", number)}.`;
  if (call.kind === "open") return "The state is a fresh one all the same, in which every share is 0.";
  return `${refusedBecause(call, number, before)}Counters, queue, states and places stay as they were.`;
}

// What of the state a refusal goes by, where it can be seen.
function refusedBecause(call, number, before) {
  const entry = entryNamed(before, call.name);
  const fuel = fuelOf(before, call.tenant);
  const tank = before.tanks.find(({ tenant }) => tenant === call.tenant);
  const alone = call.kind === "finish" ? "On a dry tank only a Free request leaves. " : "";
  if (number === 2) return `The tank of tenant ${call.tenant} is empty. ${alone}`;
  if (number === 7) return `Tenant ${call.tenant} has ${tank.share === 0 ? "no place" : `${counted(tank.share, "place")}, all in use`}. `;
  if (number === 9) return `Tenant ${call.tenant} had ${counted(fuel, "unit")}. `;
  if (number === 10) return `${call.name} is not in the queue. `;
  if (number === 11) return `${call.name} is ${WORD[entry.state]}. `;
  if (number === 12) return `${call.name} ${entry.awaited === 0 ? "awaits no answer" : "has had all its answers"}. `;
  return "";
}

function nowWords({ name, state, due }) {
  return state === "free" ? `No answer is due: ${name} is Free.` : `${counted(due, "answer")} due: ${name} is Waiting.`;
}

function beginWords({ reads, writes }, entry, queue) {
  const both = reads.filter((record) => writes.includes(record));
  const reduced = both.length > 0 ? `What is in both lists, ${recordsListed(both)}, counts as written only. ` : "";
  const joined = `${reduced}${entry.name} joins the back of the queue.`;
  if (entry.state !== "blocked") return `${joined} It conflicts with nothing ahead. ${nowWords(entry)}`;
  const { ahead } = conflictsIn(queue, entry);
  const lowest = Math.min(...ahead.flatMap(({ records }) => records));
  const clash = `It is Blocked: it conflicts with ${withWhom(ahead)}.`;
  return `${joined} ${clash} The lowest of these records, ${lowest}, stands behind the @.`;
}

function leftWords(call, before) {
  const { state } = entryNamed(before, call.name);
  const kept = "Its counters fall, and the others keep their order and their states.";
  const left = `${call.name} was ${WORD[state]}, and leaves the queue. ${kept}`;
  return call.kind === "finish" ? left : `${left} No fuel is given back.`;
}

function aloneWords(entry) {
  return `By the counters nobody else wants its records in a way that conflicts: it is promoted. ${nowWords(entry)}`;
}

// A Recheck goes by the counters, which count the entries behind as well.
function stillWords(call, after) {
  const entry = entryNamed(after, call.name);
  const { ahead, behind } = conflictsIn(after.queue, entry);
  const still = `${call.name} stays Blocked: by the counters others want its records too, ${withWhom([...ahead, ...behind])}.`;
  return ahead.length > 0 ? still : `${still} But nothing ahead conflicts: ${readyWords(entry, after)}.`;
}

function foundWords(entry) {
  const first = `${entry.name} is the first Blocked request of tenant ${entry.tenant} that conflicts with nothing ahead`;
  return `${first}: it is promoted. ${nowWords(entry)}`;
}

function nothingFound(call, queue) {
  const own = queue.filter(({ tenant, state }) => tenant === call.tenant && state === "blocked");
  if (own.length === 0) return `Tenant ${call.tenant} has no Blocked request in the queue.`;
  return `Each Blocked request of tenant ${call.tenant} conflicts with one ahead of it, be that one running or not.`;
}

function frontWords(entry) {
  return `${entry.name} is the front: nothing is ahead of it, so it is promoted, whatever the counters say. ${nowWords(entry)}`;
}

function nothingPicked(queue) {
  return queue.length === 0 ? "The queue is empty." : `The front, ${queue[0].name}, is not Blocked.`;
}

function deliverWords({ name, state, due, awaited }) {
  const left = due === 0 ? "That was the last answer due." : `${due} of ${counted(awaited, "answer")} still due.`;
  if (state === "blocked") return `${left} ${name} stays Blocked: an answer lets no Blocked request run, but it counts.`;
  return state === "free" ? `${left} ${name} is Free.` : `${left} ${name} goes on waiting.`;
}

// Which calls promote a Blocked request that conflicts with nothing ahead, as things stand.
function readyWords(entry, { queue, tanks }) {
  const place = queue.indexOf(entry);
  const isReady = (other) =>
    other.tenant === entry.tenant && other.state === "blocked" && conflictsIn(queue, other).ahead.length === 0;
  const sooner = queue.slice(0, place).find(isReady);
  const dry = fuelOf({ tanks }, entry.tenant) === 0;
  const paid = [];
  if (!sooner) paid.push("a Scan");
  if (conflictsIn(queue, entry).behind.length === 0) paid.push("a Recheck");
  const ways = dry || paid.length === 0 ? [] : [`with fuel for it ${listed(paid, "or")}`];
  if (place === 0) ways.unshift("a Pick");
  const said = ways.length > 0 ? `${ways.join(", or ")} promotes it` : "at the front a Pick will promote it";
  if (dry) return `${said}; tenant ${entry.tenant} is dry`;
  return sooner ? `${said}; a Scan promotes ${sooner.name} first` : said;
}

// The price as parts, each of units and what they were paid for, and what is said of it besides.
function priceWords(step, call, before, after) {
  const parts = billOf(step, before).map((part) => ({ units: part.units, what: partWords(part, step, call, before) }));
  return { parts, besides: besideWords(step, call, before, after, parts) };
}

function partWords({ word, entry }, step, call, before) {
  const { answer } = fieldsOf(step);
  switch (word) {
    case "now": return `now: ${sizeWords(step.joins)}`;
    case "release": return `for the release, paid beforehand: ${sizeWords(step.joins)}`;
    case "recheck": return `for the Recheck of ${call.name}: ${sizeWords(entryNamed(before, call.name))}`;
    case "cancel": return "for the cancel";
    case "search": return "for the Scan itself";
    case "look": return `for the look at ${entry.name}: ${sizeWords(entry)}`;
    default: return `for refusal ${refusalOf(answer)} by the table: ${rowWords(call.kind, refusalOf(answer))}`;
  }
}

function sizeWords({ reads, writes }) {
  const n = reads.length + writes.length;
  return n === 0 ? "1, and no record" : `1, and 1 for ${n === 1 ? "its record" : `each of ${n} records`}`;
}

function besideWords(step, call, before, after, parts) {
  const refusal = refusalOf(fieldsOf(step).answer);
  if (!call) return "A file refusal burns nothing.";
  if (!TENANT_CALLS.includes(call.kind)) return "A host call burns nothing.";
  if (call.kind === "finish" && refusal === null) return releaseWords(call);
  if (call.kind === "scan" && refusal === 9) return cutShort(call, before, after, parts);
  return "";
}

function releaseWords(call) {
  const { from } = wholeRun().requests.find(({ name }) => name === call.name);
  const [, units] = steps[from - 1].bill.find(([word]) => word === "release");
  return `To finish a Free request burns nothing: the release was paid at step ${from}, with ${counted(units, "unit")}.`;
}

function cutShort(call, before, after, parts) {
  const next = before.queue[parts.length - 1];
  const left = counted(fuelOf(after, call.tenant), "unit");
  return `${left} left, and a look at ${next.name} costs ${next.look}. Refusal 9: ${rowWords("scan", 9)}.`;
}
