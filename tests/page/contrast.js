// The texts of a page that stand out too little from what is behind them, each with its ratio. The bound is 4.5 to 1, as the
// accessibility guidelines have it for text of this size; what is switched off is not asked of.
const LEAST = 4.5;
const colour = (words) => {
  const [red, green, blue, alpha = 1] = words.match(/[\d.]+/g).map(Number);
  return { parts: [red, green, blue], alpha };
};
const lightness = ({ parts }) => {
  const [red, green, blue] = parts.map((part) => part / 255).map((part) => (part <= 0.04045 ? part / 12.92 : ((part + 0.055) / 1.055) ** 2.4));
  return 0.2126 * red + 0.7152 * green + 0.0722 * blue;
};
const ratio = (one, other) => {
  const [high, low] = [lightness(one), lightness(other)].sort((a, b) => b - a);
  return (high + 0.05) / (low + 0.05);
};
const behind = (element) => {
  for (let at = element; at; at = at.parentElement) {
    const ground = colour(getComputedStyle(at).backgroundColor);
    if (ground.alpha === 1) return ground;
  }
  return { parts: [255, 255, 255], alpha: 1 };
};
const found = [];
let looked = 0;
const texts = document.createTreeWalker(document.body, NodeFilter.SHOW_TEXT);
while (texts.nextNode()) {
  const element = texts.currentNode.parentElement;
  const seen = texts.currentNode.data.trim() !== "" && element.checkVisibility() && !element.closest("script, style, title, .unseen, :disabled");
  if (!seen) continue;
  const style = getComputedStyle(element);
  const ink = colour(element.closest("svg") ? style.fill : style.color);
  const reached = ratio(ink, behind(element));
  looked += 1;
  if (reached < LEAST) found.push(`${texts.currentNode.data.trim().slice(0, 40)}: ${reached.toFixed(2)}`);
}
return [looked, found];
