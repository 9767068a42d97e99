// The queue as cards, front first, and the lines from each Blocked entry to those ahead that it conflicts with.

const NAMED_AT_MOST = 4; // a card with more conflicts has their names folded away
const LABELLED_AT_MOST = 12; // with more lines than this, those of the card that the call is about alone are labelled
const LEAST_REACH = 16; // and so where the lines stand closer than this

const cards = byId("cards");
const conflictLines = byId("conflicts");
let shownConflicts = [];

// Shows the queue of a state; `looks` tells at how many entries the call looked, `touched` whom it is about. Where the student is
// asked, it is the queue before the call, and what follows from it is not said.
function showQueue(state, looks, touched, asking) {
  const { queue } = state;
  const named = `The queue${asking ? " before the call" : ""}`;
  byId("queue-name").textContent =
    queue.length === 0 ? `${named} is empty` : `${named}: ${counted(queue.length, "request")}, front first`;
  cards.replaceChildren(...queue.map((entry, place) => card(entry, place, place < looks)));
  shownConflicts = [];
  queue.forEach((entry, place) => {
    if (entry.state !== "blocked") return;
    const { ahead, behind } = conflictsIn(queue, entry);
    if (!asking) cards.children[place].append(why(entry, state, ahead, behind));
    for (const { other, records } of ahead) {
      shownConflicts.push({ from: place, to: queue.indexOf(other), names: [entry.name, other.name], records });
    }
  });
  const place = queue.findIndex(({ name }) => name === touched);
  if (place >= 0) markCard(cards.children[place]);
  drawConflicts();
}

function markCard(marked) {
  marked.classList.add("touched");
  bringIntoSight(byId("queue"), marked.offsetTop, marked.offsetHeight);
}

const ORDINALS = { 1: "st", 2: "nd", 3: "rd" };

// `front`, `2nd`, `3rd`, .. `11th`, .. `21st`.
function placeWords(place) {
  const number = place + 1;
  const teen = number > 10 && number < 14;
  return place === 0 ? "front" : `${number}${(!teen && ORDINALS[number % 10]) || "th"}`;
}

function card({ name, state, reads, writes, awaited, due, look }, place, looked) {
  const top = element("p", { class: "top" },
    element("span", { class: "place" }, placeWords(place)), " ",
    element("strong", { class: "name" }, name), " ",
    element("span", { class: `state ${state}` }, WORD[state]));
  if (looked) top.append(" ", element("span", { class: "looked" }, `look: ${counted(look, "unit")}`));
  const lists = element("p", { class: "lists" });
  if (reads.length > 0) lists.append(element("span", { class: "reads" }, `reads ${reads.join(" ")}`), " ");
  if (writes.length > 0) lists.append(element("span", { class: "writes" }, `writes ${writes.join(" ")}`));
  if (reads.length + writes.length === 0) lists.append("no record");
  const made = element("li", { class: `card ${state}`, "data-name": name }, top, lists);
  if (awaited > 0) made.append(element("p", { class: "due" }, `answers due: ${due} of ${awaited}`));
  return made;
}

// Why a Blocked entry waits, or who can promote it.
function why(entry, state, ahead, behind) {
  if (ahead.length > NAMED_AT_MOST) {
    return element("details", { class: "why" },
      element("summary", {}, `waits for ${counted(ahead.length, "request")} ahead:`), ` ${withWhom(ahead)}`);
  }
  if (ahead.length > 0) return element("p", { class: "why" }, `waits for ${withWhom(ahead)}`);
  const then = entry.due === 0 ? "it may run" : `it may go on to wait for its ${counted(entry.due, "answer")}`;
  const words = element("p", { class: "why" },
    element("strong", {}, "nothing ahead conflicts"), `, so ${then}: ${readyWords(entry, state)}.`);
  const others = behind.length > NAMED_AT_MOST ? counted(behind.length, "request") : withWhom(behind);
  if (behind.length > 0) words.append(` A Recheck says “still”: it counts those behind as well, ${others}.`);
  return words;
}

// A curve for each conflict, from the card that waits to the one ahead; the further apart the two, the wider it swings.
function drawConflicts() {
  const width = conflictLines.clientWidth;
  conflictLines.style.height = `${cards.offsetHeight}px`;
  const widest = Math.max(1, ...shownConflicts.map(({ from, to }) => from - to));
  const reach = Math.min(34, (width - 16) / 0.75 / widest);
  const many = shownConflicts.length > LABELLED_AT_MOST || reach < LEAST_REACH;
  const drawn = shownConflicts.map((conflict) => curve(conflict, width, 14 + reach * (conflict.from - conflict.to)));
  const labels = drawn.filter(({ own }) => own || !many).map(({ label }) => label);
  conflictLines.classList.toggle("many", many);
  conflictLines.replaceChildren(...drawn.flatMap(({ line, head }) => [line, head]), ...labels);
  setApart(labels, width);
}

// A label stands at the middle of its line, but between border and cards, and below those that it would lie on.
function setApart(labels, width) {
  const placed = [];
  for (const [label, box] of labels.map((found) => [found, found.getBBox()])) {
    const own = { x: Math.max(0, Math.min(box.x, width - box.width)), y: box.y, width: box.width, height: box.height };
    for (let under = boxUnder(placed, own); under; under = boxUnder(placed, own)) own.y = under.y + under.height;
    label.setAttribute("x", own.x + own.width / 2);
    label.setAttribute("dy", own.y - box.y);
    placed.push(own);
  }
}

function curve({ from, to, names, records }, width, swing) {
  const [start, end] = [from, to].map((place) => cards.children[place].offsetTop + 20);
  const own = cards.children[from].classList.contains("touched");
  const out = width - swing;
  const label = records.length > 1 ? `${records[0]}…` : `${records[0]}`;
  const path = `M${width} ${start}C${out} ${start} ${out} ${end} ${width - 5} ${end}`;
  return {
    own,
    line: svgElement("path", { class: own ? "conflict own" : "conflict", "data-from": names[0], "data-to": names[1], d: path }),
    head: svgElement("path", { class: "head", d: `M${width} ${end}l-7 -4v8z` }),
    label: svgElement("text", { class: "on", x: width - 0.75 * swing, y: (start + end) / 2 + 4 }, label),
  };
}

// The card under the pointer keeps its lines, and the others fade.
function fadeOthers(over) {
  for (const { dataset, classList } of conflictLines.querySelectorAll(".conflict")) {
    const keeps = !over || [dataset.from, dataset.to].includes(over.dataset.name);
    classList.toggle("faded", !keeps);
    classList.toggle("kept", Boolean(over) && keeps);
  }
}

cards.addEventListener("pointerover", (event) => fadeOthers(event.target.closest(".card")));
cards.addEventListener("pointerleave", () => fadeOthers(null));
cards.addEventListener("toggle", drawConflicts, true);
