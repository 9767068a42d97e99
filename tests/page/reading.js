// What a page shows of its step, read off its elements as text.
const one = (selector, within = document) => within.querySelector(selector);
const all = (selector, within = document) => [...within.querySelectorAll(selector)];
const text = (selector, within = document) => {
  const found = one(selector, within);
  return found && found.checkVisibility() ? found.innerText.trim() : "";
};
const counters = (id) => all(`#${id} .cell`).filter((cell) => cell.innerText !== "").map((cell) => `${cell.dataset.record}=${cell.innerText}`);
const marked = (id) => all(`#${id} .cell.touched`).map((cell) => Number(cell.dataset.record));
return JSON.stringify({
  at: Number(one("#at").value),
  line: text("#lines [aria-current]"),
  call: text("#call"),
  typed: text("#typed"),
  answer: text("#answer"),
  burnt: text("#burnt"),
  left: text("#left"),
  whose: text("#whose"),
  now: text("#now"),
  meaning: text("#meaning"),
  sum: text("#price .sum"),
  parts: all("#price li").map((part) => [Number(text("b", part)), part.innerText]),
  price: text("#price"),
  said: all("#said p").map((found) => found.innerText),
  asks: one("#question").checkVisibility(),
  verdict: text("#verdict"),
  score: text("#score"),
  red: all(".different").filter((found) => found.checkVisibility()).map((found) => found.innerText),
  announced: one("#announced").textContent,
  cards: all("#cards > .card").map((card) => ({
    place: text(".place", card),
    name: text(".name", card),
    state: text(".state", card),
    reads: text(".reads", card),
    writes: text(".writes", card),
    due: text(".due", card),
    why: one(".why", card) ? one(".why", card).textContent : "",
    looked: text(".looked", card),
    touched: card.classList.contains("touched"),
  })),
  conflicts: all("#conflicts .conflict").map(({ dataset }) => [dataset.from, dataset.to]),
  labels: all("#conflicts .on").map((label) => label.textContent),
  tanks: all("#tanks > li").map((tank) => ({
    tenant: Number(tank.dataset.tenant),
    named: text(".tenant", tank),
    touched: tank.classList.contains("touched"),
    numbers: text(".numbers", tank),
    places: text(".places", tank),
    seats: all(".seat", tank).length,
    held: all(".seat.held", tank).length,
    full: one(".full", tank).getBoundingClientRect().width / one(".fuel", tank).clientWidth,
  })),
  cx: counters("cx"),
  cs: counters("cs"),
  cxSaid: text("#cx-said"),
  csSaid: text("#cs-said"),
  cxMarked: marked("cx"),
  csMarked: marked("cs"),
});
