// Stepping: which step is shown, how it is got to, and the address that keeps it.

let shown = 0;

function show(wanted) {
  shown = stepFor(Math.min(Math.max(wanted, 1), last));
  const step = steps[shown - 1];
  const call = callOf(step);
  const asking = shown >= hiddenStep();
  const before = stateAfter(shown - 1);
  const after = asking ? before : stateAfter(shown);
  const touched = touchedBy(step, call, before, after, asking);
  showBar();
  showCall(step, call, asking);
  if (asking) showQuestion(shown, call, before);
  else showAnswer(step, call, before, after);
  showQueue(after, asking ? 0 : looksOf(step), touched.name, asking);
  showTanks(after, call && call.tenant, asking);
  showCounters(after.queue, touched, asking);
  showListing();
  markChart();
  hideTellings();
  keepAddress();
}

function showBar() {
  byId("at").value = shown;
  byId("now").textContent = lineText(shown);
  byId("score").textContent = scoreWords();
  byId("run").classList.toggle("quiz", quiz.on);
  // A button that is switched off would lose the focus.
  for (const id of ["first", "back"]) byId(id).setAttribute("aria-disabled", shown === 1);
  for (const id of ["forward", "last"]) byId(id).setAttribute("aria-disabled", shown === last);
}

function showCall(step, call, asking) {
  const { call: kind, answer, burnt, left } = fieldsOf(step);
  const none = kind === "file" ? "The file is not read any further." : "There is no call here.";
  const words = call ? callWords(call) : none;
  const verdict = quiz.on && !asking && shown === quiz.known ? quiz.verdict : "";
  byId("call").textContent = `Step ${shown}: ${words}`;
  byId("typed").textContent = typedWords(step.call || "");
  byId("question").hidden = !asking;
  byId("outcome").hidden = asking;
  byId("difference").hidden = asking || !step.difference;
  byId("difference").textContent = step.difference ? `This line differs: ${step.difference}` : "";
  byId("verdict").hidden = verdict === "";
  byId("verdict").textContent = verdict;
  const outcome = asking ? "What does it answer, and what does it burn?" : `Answer ${answer}, burnt ${burnt}, left ${left}.`;
  byId("announced").textContent = [`Step ${shown} of ${last}.`, words, verdict, outcome].filter(Boolean).join(" ");
}

const TYPED_AT_MOST = 200;

// A long call is cut between two words.
function typedWords(call) {
  if (call.length <= TYPED_AT_MOST) return call;
  return `${call.slice(0, call.lastIndexOf(" ", TYPED_AT_MOST))} ...`;
}

function showAnswer(step, call, before, after) {
  const { answer, burnt, left } = fieldsOf(step);
  byId("answer").textContent = answer || "no answer";
  byId("burnt").textContent = burnt || "?";
  byId("left").textContent = left || "?";
  byId("whose").textContent = call && fuelOf(after, call.tenant) !== null ? ` in the tank of tenant ${call.tenant}` : "";
  // Where the answer is not the second program's, its state does not explain it.
  byId("meaning").textContent = step.difference ? "" : meaningOf(step, call, before, after);
  const price = priceParts(step, call, before, after);
  byId("price-name").hidden = price.length === 0;
  byId("price").replaceChildren(...price);
  const said = (step.said || []).map((words) => element("p", {}, words));
  byId("said").replaceChildren(...(said.length > 0 ? [element("h4", {}, "The file's comment"), ...said] : []));
}

function priceParts(step, call, before, after) {
  const { parts, besides } = step.difference ? { parts: [], besides: "" } : priceWords(step, call, before, after);
  const units = parts.map((part) => part.units);
  const shownParts = [];
  if (parts.length > 1) shownParts.push(element("p", { class: "sum" }, `${units.join(" + ")} = ${priceOf(step)}`));
  if (parts.length > 0) {
    const items = parts.map((part) => element("li", {}, element("b", {}, `${part.units}`), ` ${part.what}`));
    shownParts.push(element("ol", {}, ...items));
  }
  if (besides) shownParts.push(element("p", {}, besides));
  const wrong = disagreements(step, call, after).map((words) => element("p", { class: "different" }, words));
  return [...shownParts, ...wrong];
}

// What the page shows is held to the line: the sum to the units burnt, the tank to the fuel left.
function disagreements(step, call, after) {
  const { burnt, left } = fieldsOf(step);
  const fuel = call && fuelOf(after, call.tenant);
  const wrong = [];
  if (burnt !== `${priceOf(step)}`) wrong.push(`The sum is ${priceOf(step)}, and the listing has ${burnt}.`);
  if (fuel !== null && left !== `${fuel}`) wrong.push(`The tank has ${fuel}, and the listing has ${left}.`);
  return wrong;
}

// The entry that a step is about, with its records: that which the answer or the call names, after the call or before it.
function touchedBy(step, call, before, after, asking) {
  const name = (!asking && nameIn(fieldsOf(step).answer)) || (call && call.name);
  return entryNamed(after, name) || entryNamed(before, name) || { name: "", reads: [], writes: [] };
}

let keeping = 0;

// The address follows a little later: a browser takes it ill if it changes many times a second. One that a link has changed in the
// meantime is followed, and not kept.
function keepAddress() {
  const { hash } = location;
  clearTimeout(keeping);
  keeping = setTimeout(() => {
    if (location.hash === hash && hash !== `#${shown}`) history.replaceState(null, "", `#${shown}`);
  }, 150);
}

// The step that the address names is shown and brought into sight: a link to it may stand far from the run.
function followAddress() {
  const found = /^#(\d+)$/.exec(location.hash);
  if (!found) return;
  show(Number(found[1]));
  const { top, height } = byId("call").parentElement.getBoundingClientRect();
  const seen = top >= byId("bar").offsetHeight && top + Math.min(height, 200) <= window.innerHeight;
  if (!seen) byId("run").scrollIntoView();
  byId("call").focus({ preventScroll: true });
}

// Shows a step; where it is asked about, the keyboard is led to the question.
function go(wanted) {
  const posed = quiz.posed;
  show(wanted);
  if (quiz.posed !== posed && document.activeElement !== byId("at")) byId("call").focus({ preventScroll: true });
}

function answered(chosen) {
  judge(shown, chosen);
  show(shown);
  byId("forward").focus({ preventScroll: true });
}

const KEYS = { ArrowLeft: () => shown - 1, ArrowRight: () => shown + 1, Home: () => 1, End: () => last };
const LISTING_KEYS = { ArrowUp: KEYS.ArrowLeft, ArrowDown: KEYS.ArrowRight };

// Keys that a field or the browser takes for itself are left to it.
function onKey(event) {
  const taken = event.target.closest("input:not([type=checkbox])");
  if (taken || event.altKey || event.ctrlKey || event.metaKey || event.shiftKey) return;
  const wanted = KEYS[event.key] || (lines.contains(event.target) && LISTING_KEYS[event.key]);
  if (!wanted) return;
  event.preventDefault();
  go(wanted());
}

// A line that is opened elsewhere, in a tab of its own, is the browser's.
function onLine(event) {
  const link = event.target.closest("a");
  if (!link || event.ctrlKey || event.metaKey || event.shiftKey || event.altKey) return;
  event.preventDefault();
  go(Number(link.hash.slice(1)));
}

function onAsk() {
  if (byId("ask").checked) startQuiz(shown);
  else quiz.on = false;
  show(quiz.on ? Math.min(shown, quiz.known) : shown);
}

function onCheck(event) {
  event.preventDefault();
  const { answer, units } = byId("question").elements;
  const { textContent } = byId("question").querySelector(":checked").parentElement;
  answered({ answer: answer.value, words: textContent, units: `${Number(units.value)}` });
}

function listen() {
  byId("first").addEventListener("click", () => go(1));
  byId("back").addEventListener("click", () => go(shown - 1));
  byId("forward").addEventListener("click", () => go(shown + 1));
  byId("last").addEventListener("click", () => go(last));
  byId("at").addEventListener("change", () => go(Math.trunc(byId("at").value) || shown));
  byId("drawing").addEventListener("click", (event) => go(stepUnder(event)));
  byId("ask").addEventListener("change", onAsk);
  byId("question").addEventListener("submit", onCheck);
  byId("question").addEventListener("click", (event) => event.target.id === "give-up" && answered(null));
  lines.addEventListener("click", onLine);
  document.addEventListener("keydown", onKey);
  window.addEventListener("hashchange", followAddress);
}

let laidOut = 0;

// What is measured is laid out again where the room for it has changed.
function layOut() {
  const { clientWidth } = byId("run");
  if (clientWidth === laidOut) return;
  laidOut = clientWidth;
  drawConflicts();
  showListing();
  drawChart();
  markChart();
}

function sayDifferent() {
  const different = [run, ...steps].filter(({ difference }) => difference).length;
  const told = `The second program differs from the proved listing in ${counted(different, "line")}, in red below.`;
  byId("different").hidden = different === 0;
  byId("different").textContent = run.difference ? `${told} The header: ${run.difference}` : told;
}

function start() {
  byId("count").textContent = last.toLocaleString("en");
  byId("at").max = last;
  byId("ask").checked = false;
  sayDifferent();
  if (last === 0) {
    byId("empty").hidden = false;
    for (const part of ["columns", "chart", "bar"]) byId(part).hidden = true;
    return;
  }
  findTellings();
  listen();
  show(1);
  followAddress();
  performance.mark("first view");
  // The chart follows the whole run, which the first view need not wait for.
  setTimeout(() => {
    layOut();
    new ResizeObserver(layOut).observe(byId("run"));
    performance.mark("drawn");
  });
}

start();
