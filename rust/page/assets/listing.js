// The listing beside the step. A long run has more lines than a browser lays out at once, so only those in sight are there.

const lines = byId("lines");
const lineItems = lines.firstElementChild;
const SPARE = 12; // lines kept above and below those in sight

let lineHeight = 0;

byId("header").textContent = run.line || "";
if (run.difference) byId("header").classList.add("differs");

// What the listing says of a step; of those that the student is still to be asked about, the call alone.
function lineText(at) {
  const { line, call } = steps[at - 1];
  if (at >= hiddenStep()) return `${at} ${call ? call.split(" ")[0] : "file"} ? ? ?`;
  return line === undefined ? "(no line)" : line;
}

function lineItem(at) {
  const link = element("a", { href: `#${at}`, tabindex: at === shown ? "0" : "-1" }, lineText(at));
  const top = `top: ${(at - 1) * lineHeight}px`;
  const item = element("li", { class: "line", style: top, "aria-setsize": last, "aria-posinset": at }, link);
  if (at === shown) link.setAttribute("aria-current", "step");
  if (at < hiddenStep() && steps[at - 1].difference) item.classList.add("differs");
  return item;
}

// Puts in the lines in sight, and that of the step, by which the keyboard gets into the listing.
function showLines() {
  const from = Math.max(1, Math.floor(lines.scrollTop / lineHeight) - SPARE);
  const to = Math.min(last, Math.ceil((lines.scrollTop + lines.clientHeight) / lineHeight) + SPARE);
  const focused = lineItems.contains(document.activeElement);
  const items = [];
  if (shown < from) items.push(lineItem(shown));
  for (let at = from; at <= to; at += 1) items.push(lineItem(at));
  if (shown > to) items.push(lineItem(shown));
  lineItems.replaceChildren(...items);
  if (focused) lineItems.querySelector("[aria-current]").focus({ preventScroll: true });
}

// Marks the line of the step, and brings it into sight.
function showListing() {
  // A line's height goes with the reader's letters.
  lineHeight = byId("header").offsetHeight;
  lineItems.style.height = `${last * lineHeight}px`;
  bringIntoSight(lines, (shown - 2) * lineHeight, 3 * lineHeight);
  showLines();
}

lines.addEventListener("scroll", showLines);
