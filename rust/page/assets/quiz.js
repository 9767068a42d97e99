// The quiz: with the box ticked, a step that has not been shown yet is asked about first.

// In the order in which a call takes them. An Open is the first step, which is always shown.
const REFUSALS = {
  grant: [1, 13],
  begin: [1, 2, 3, 4, 6, 7, 8, 9],
  finish: [1, 2, 10, 11],
  recheck: [1, 2, 10, 11, 9],
  scan: [1, 2, 9],
  cancel: [1, 2, 10, 11],
  pick: [],
  deliver: [1, 10, 12],
  evict: [1, 10],
};

// Up to which step all is known, which step stands in the question, and of those asked about how many answers and prices were right.
const quiz = { on: false, known: 0, posed: 0, asked: 0, answers: 0, prices: 0, verdict: "" };

// Asks from the step behind this one on; whoever is at the end is asked from the beginning.
function startQuiz(at) {
  Object.assign(quiz, { on: true, known: at === last ? 1 : at, posed: 0, asked: 0, answers: 0, prices: 0, verdict: "" });
}

// The first step that is not to be seen yet.
function hiddenStep() {
  return quiz.on ? quiz.known + 1 : Infinity;
}

// The step that is shown where one is wanted: none is passed over. What is no call is not asked about.
function stepFor(wanted) {
  if (!quiz.on) return wanted;
  while (quiz.known < wanted && !steps[quiz.known].call) quiz.known += 1;
  return Math.min(wanted, quiz.known + 1);
}

// The parts of a chapter's text that tell what comes, each with the step after which it may be read: excerpts of the listing, and
// what happens. As long as one is hidden, a word stands in its place.
const tellings = [];

function findTellings() {
  for (const part of document.querySelectorAll(".prose:not(.told) pre")) {
    const told = [...part.querySelectorAll("a")].map(({ hash }) => Number(hash.slice(1)));
    if (told.length > 0) addTelling(part, Math.max(...told));
  }
  for (const part of document.querySelectorAll(".told")) addTelling(part, last);
}

function addTelling(part, step) {
  const word = element("p", { class: "untold" }, `Told after step ${step}.`);
  part.before(word);
  tellings.push({ part, step, word });
}

function hideTellings() {
  for (const { part, step, word } of tellings) {
    const untold = step >= hiddenStep();
    part.hidden = untold;
    word.hidden = !untold;
  }
}

// What a call may answer, by the call and the queue before it alone.
function choices(call, before) {
  const [free, waiting, blocked] = Object.entries(WORD);
  const promoted = before.queue
    .filter(({ tenant, state }) => tenant === call.tenant && state === "blocked")
    .flatMap(({ name }) => [free, waiting].map(([state, word]) => [`${state}:${name}`, `${name} is ${word}`]));
  const same = (word) => [word, word];
  const successes = {
    grant: [same("ok")],
    begin: [free, waiting, blocked],
    finish: [same("done")],
    recheck: [free, waiting, same("still")],
    scan: [...promoted, same("nothing")],
    cancel: [same("done")],
    pick: [free, waiting, same("nothing")],
    deliver: [free, waiting, blocked],
    evict: [same("done")],
  };
  const refusals = REFUSALS[call.kind].map((number) => [`refused:${number}`, `refused: ${number}, ${rowWords(call.kind, number)}`]);
  return [...successes[call.kind], ...refusals];
}

// The choice that an answer is: a state without name and record, but where the name is the question.
function choiceOf(call, answer) {
  const plain = (answer || "").replace(/@.*/, "");
  return call.kind === "scan" || plain.startsWith("refused") ? plain : plain.replace(/:.*/, "");
}

// Puts the question of a step; what the student has begun to answer stays.
function showQuestion(at, call, before) {
  if (quiz.posed === at) return;
  quiz.posed = at;
  const choice = ([value, words]) =>
    element("label", {}, element("input", { type: "radio", name: "answer", value, required: "" }), words);
  byId("question").replaceChildren(
    element("fieldset", {}, element("legend", {}, "What does it answer?"), ...choices(call, before).map(choice)),
    element("label", {}, "How many units does it burn? ",
      element("input", { type: "number", name: "units", min: "0", required: "", inputmode: "numeric" })),
    element("p", { class: "buttons" },
      element("button", { type: "submit" }, "Check"), " ",
      element("button", { type: "button", id: "give-up" }, "Show me")));
}

// Judges what the student chose, with the words of the choice; nothing is chosen where it was given up.
function judge(at, chosen) {
  const { answer, burnt } = fieldsOf(steps[at - 1]);
  const right = choiceOf(callOf(steps[at - 1]), answer);
  quiz.known = at;
  quiz.asked += 1;
  quiz.verdict = "Shown, and not counted as right.";
  if (!chosen) return;
  const [answerRight, priceRight] = [chosen.answer === right, chosen.units === burnt];
  if (answerRight) quiz.answers += 1;
  if (priceRight) quiz.prices += 1;
  const verdict = (isRight, said) => (isRight ? "right" : `not ${said}`);
  quiz.verdict = `Answer: ${verdict(answerRight, chosen.words)}. Units: ${verdict(priceRight, chosen.units)}.`;
}

function scoreWords() {
  if (!quiz.on) return "";
  if (quiz.asked === 0) return `asks from step ${quiz.known + 1} on`;
  return `right: ${quiz.answers} of ${counted(quiz.asked, "answer")}, ${quiz.prices} of ${counted(quiz.asked, "price")}`;
}
