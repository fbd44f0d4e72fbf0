"use strict";
// The guide through the page: the lessons in order, the questions before a reply, and the exercises.

// ---- one list of all scripts

const MODES = ["run", "chain", "wire"];
const allOf = kind => MODES.flatMap(mode => SCRIPTS[mode][kind].map(it => ({ ...it, mode, kind })));
// The lessons of all tabs, in order; the exercises; and the examples.
const LISTS = { lessons: allOf("lessons").sort((a, b) => (a.name < b.name ? -1 : 1)), exercises: allOf("exercises"),
  examples: allOf("examples") };
const scriptNamed = (mode, name) =>
  Object.values(LISTS).flat().find(it => it.mode === mode && it.name === name);

// Your scripts are first in the list. The one that is open is in it even before it's kept.
function showScripts() {
  const option = ({ mode, name, title }) => h("option", { value: `${mode}/${name}` }, title);
  const mine = [...new Set([...ownNames(), ...(page.mine ? [page.mine] : [])])];
  const yours = [...mine.map(name => [name, name]), ["", "a new script"]]
    .map(([name, title]) => ({ mode: "own", name, title }));
  const group = ([label, all]) => h("optgroup", { label }, all.map(option));
  const groups = [["Yours", yours], ["Lessons", LISTS.lessons], ["Exercises", LISTS.exercises],
    ["Examples: the stack", LISTS.examples.filter(it => it.mode === "run")],
    ["Examples: mbuf chains", LISTS.examples.filter(it => it.mode === "chain")],
    ["Examples: on a wire", LISTS.examples.filter(it => it.mode === "wire")]];
  byId("choice").replaceChildren(...groups.map(group));
  byId("how-many").textContent = String(LISTS.lessons.length);
}

// The lesson or the exercise after this one.
function following() {
  const list = page.known && (page.known.kind === "examples" ? null : LISTS[page.known.kind]);
  return list ? list[list.findIndex(it => it.name === page.known.name) + 1] : LISTS.lessons[0];
}

function showTitle() {
  const { known } = page, next = following();
  const kind = { lessons: "Lesson", exercises: "Exercise", examples: "Example:" };
  byId("head-script").textContent = known ? `${kind[known.kind]} ${known.title}` : page.mine;
  byId("forget").hidden = Boolean(known);
  byId("next-lesson").hidden = !next;
  byId("next-lesson").textContent = !known || known.kind === "examples" ? "First lesson"
    : known.kind === "lessons" ? "Next lesson" : "Next exercise";
  showScripts();
  byId("choice").value = known ? `${known.mode}/${known.name}` : `own/${page.mine}`;
}

function openNext() {
  const next = following();
  if (next) open(next.mode, { name: next.name });
  focusRow();
}

// ---- predict, then reveal

// Whether the page says that the expected reply came: in a lesson it always does.
const isMetShown = step => Boolean(step.expected) && !(step.isMet && page.known && !isExercise());
const isUnsolved = ({ expected, line }) => expected === null && !line.startsWith("--");
const isExercise = () => Boolean(page.known) && page.known.kind === "exercises";

// The question about a line before its reply is shown: a question of a lesson, or each reply of an exercise.
function questionOf(i) {
  if (page.guesses.has(i)) return null;
  if (isExercise()) return isUnsolved(page.steps[i]) ? { text: "What is the reply?", answers: null } : null;
  return page.notes.questions[i];
}

// Whether a row is after an unanswered question, so that its reply could reveal the answer. In an exercise each row is
// a separate question.
const isBehindQuestion = i => page.firstQuestion !== null && i > page.firstQuestion && !isExercise();

function findQuestion() {
  const i = page.steps.findIndex((_, at) => questionOf(at));
  page.firstQuestion = i < 0 ? null : i;
}

function answered(i, guess) {
  page.guesses.set(i, guess);
  refreshRows();
  select(i);
  byId("forth").focus();
}

// The line that a question is about. In an exercise the bytes of its packet are below it.
function askedHead(step) {
  const [, front, digits] = /^(.*\b(?:rx|frame)) ([0-9a-f]{16,})$/.exec(step.line) || [];
  if (!digits || !isExercise()) return h("h3", {}, h("span", {}, askedLine(step, 2000)));
  const bytes = bytesOf(digits);
  return [h("h3", {}, h("span", {}, h("code", {}, front), " ", plural(bytes.length, "byte"))),
    scroller("the bytes of the packet", dumpOf(bytes))];
}

// A question with its answers, or with a field.
function questionView(step, i, question) {
  const form = h("form", { class: "predict" });
  const choices = question.answers && question.answers.map((answer, k) =>
    h("label", { class: "option" }, h("input", { type: "radio", name: "guess", value: String(k) }),
      h("kbd", { class: "by-key", "aria-hidden": "true" }, String(k + 1)), h("span", {}, answer.text)));
  const hint = h("p", { class: "verdict wait", role: "alert", hidden: true },
    choices ? "Choose an answer first." : "First write the reply that you expect.");
  const input = h("input", { name: "guess", autocomplete: "off", spellcheck: "false" });
  const field = !choices && h("label", {}, "the reply, for example ", h("code", {}, "ok"), " or ",
    h("code", {}, "dropped wrong header checksum"), input);
  form.append(h("fieldset", {}, h("legend", {}, question.text), choices || field,
    h("p", { class: "answers" }, h("button", { type: "submit", class: "main" }, "Check"),
      h("button", { type: "button", onclick: () => answered(i, null) }, "Show me")), hint));
  form.addEventListener("submit", event => {
    event.preventDefault();
    const guess = new FormData(form).get("guess") || "";
    hint.hidden = Boolean(guess.trim());
    if (!hint.hidden) form.querySelector("input").focus();
    else if (choices) answered(i, question.answers[+guess]);
    else expectHere(i, guess);
  });
  return h("section", { class: "panel lead" }, askedHead(step),
    isExercise() && page.noteOf(step) && h("p", { class: "note" }, page.noteOf(step)), form);
}

// A line after an unanswered question. Its effects could reveal the answer, so they aren't shown.
function hiddenView(step) {
  const asking = page.firstQuestion, place = page.notes.places[asking] + 1;
  const answer = () => {
    select(asking);
    byId("look").querySelector(".predict input").focus();
  };
  return h("section", { class: "panel lead" }, askedHead(step),
    h("p", { class: "note" }, `Line ${place} asks a question. What this line did is shown after you answer it.`),
    h("p", { class: "answers" },
      h("button", { type: "button", class: "main", onclick: answer }, "Go to the question"),
      h("button", { type: "button", onclick: () => skipQuestions(page.at) }, "Show this line")));
}

// Shows a line, and skips the questions before it.
function skipQuestions(last) {
  for (let i = 0; i < last; i++) if (questionOf(i)) page.guesses.set(i, null);
  refreshRows();
  select(last);
  byId("forth").focus();
}

// The guess, and whether it was right.
function guessView(i) {
  const guess = page.guesses.get(i), question = page.notes.questions[i];
  if (!guess || !question) return null;
  const right = question.answers.find(it => it.isRight);
  return guess.isRight ? verdict("yes", h("b", {}, "Right: "), `${guess.text}.`)
    : verdict("no", h("b", {}, "Wrong. "), `Your answer: ${guess.text}. Right: ${right.text}.`);
}

// ---- exercises

// The script of an exercise without the expected replies, which the student has to find.
const unsolved = text => linesOf(text).filter(line => !line.startsWith("##"))
  .map(line => (line.startsWith("#?") ? line.replace(/ *=>.*$/, "") : line.startsWith("#") ? line : withoutReply(line)))
  .join("\n") + "\n";

function withoutReply(text) {
  const { asked, wanted } = partsOf(text);
  return wanted === null ? text : asked;
}

// Writes the expected reply after a line, so that it's in the file that is handed in.
function expectHere(i, guess) {
  const all = page.notes.all, place = page.notes.places[i];
  const lines = all.map((line, k) => (k === place ? `${partsOf(line).asked} => ${guess.trim()}` : line));
  rewrite(lines, i);
  byId("forth").focus();
}

// ---- the questions of an exercise

// The questions at its end, and the key's line for the same question.
function asksOf() {
  if (!isExercise()) return [];
  const wanted = new Map(readNotes(page.known.text).asks.map(it => [it.text, it.line]));
  return page.notes.asks.filter(it => wanted.has(it.text)).map(it => ({ ...it, key: wanted.get(it.text) }));
}

// A question, with a field for its answer. The program compares that with the key's.
function askView({ place, line, key, text, answer }, k) {
  const { right, wrong } = page.engine.marks(key, line);
  const input = h("input", { id: `ask-${k}`, value: right || wrong ? answer : "", autocomplete: "off",
    spellcheck: "false" });
  const form = h("form", { class: "predict", onsubmit(event) {
    event.preventDefault();
    answerAsk(place, text, input.value, k);
  } }, h("label", {}, h("span", {}, /[?.]$/.test(text) ? text : `${text}?`), input),
  h("button", { type: "submit" }, "Check"));
  const said = right ? verdict("yes", "✓ Right.") : wrong ? verdict("no", "✗ Wrong. Change lines to find the answer.") : null;
  const head = k === 0 && h("p", { class: "row-note" }, h("b", {}, "Questions. "),
    "Answer with a number, or with one word as it's written here or in a reply.");
  return h("li", { class: "ask" }, head, form, said);
}

// Writes an answer after its question, so that it's in the file that is handed in. The focus moves to the next
// question.
function answerAsk(place, text, answer, k) {
  const line = `#? ${text} => ${answer.trim() || "?"}`;
  rewrite(page.notes.all.map((it, i) => (i === place ? line : it)), page.at);
  const mark = byId(`ask-${k}`).closest(".ask").querySelector(".verdict"), next = byId(`ask-${k + 1}`);
  byId("said").textContent = mark ? mark.textContent : "No answer.";
  (mark && mark.matches(".yes") && next ? next : byId(`ask-${k}`)).focus();
}

// The key's line for each step of an exercise: the next one with the same call, as the program finds it.
function keysOf() {
  const keys = new Map();
  let next = 0;
  if (!isExercise()) return keys;
  for (const line of readNotes(page.known.text).lines) {
    const { asked, wanted } = partsOf(line);
    const i = page.notes.lines.findIndex((it, at) => at >= next && partsOf(it).asked === asked);
    if (wanted === null || i < 0) continue;
    keys.set(i, line);
    next = i + 1;
  }
  return keys;
}

// What the key says of a predicted reply that comes, if it wants more words of it; or null.
function partOfKey({ isMet, expected, number }) {
  const key = isMet && expected !== null && page.keys.get(number - 1);
  if (!key || page.engine.marks(key, page.notes.lines[number - 1]).right) return null;
  const [words, given] = [partsOf(key).wanted, expected].map(text => text.split(/\s+/));
  const same = words.findIndex((word, i) => i >= given.length || !isSameWord(given[i], word));
  return `The key wants the whole reply: ${plural(Math.max(same, 0), "word")} of ${words.length} `
    + `${same === 1 ? "is" : "are"} right here.`;
}

// The result of `bsdplay --grade` for an exercise with its key.
function gradeOf() {
  const { right, wrong, missing } = page.engine.marks(page.known.text, page.text);
  const isSound = page.steps.every(step => step.kind !== "bad" && (step.expected === null || step.isMet));
  return `By the key, with the questions: ${right} right, ${wrong} wrong, ${missing} missing`
    + `${right && !wrong && !missing && isSound ? ": it passes." : "."}`;
}

// ---- the forms of lines

// The forms of all lines, like in `bsdplay --help`, and the values for each word.
function showForms() {
  const list = all => h("ul", {}, all.map(it => h("li", {}, h("code", {}, it))));
  byId("forms-of").replaceChildren(h("h3", {}, "One host"), list(FORMS.machine),
    h("h3", {}, "Many hosts: write ", h("code", {}, "NAME:"), " before the lines above"), list(FORMS.wire),
    h("h3", {}, "A host on an Ethernet, after its ", h("code", {}, "NAME:")), list(FORMS.ethernet),
    h("h3", {}, "Words"), list(FORMS.words));
}

function seeForms() {
  showStart(false);
  showLeft("edit");
  byId("forms").open = true;
  byId("forms").querySelector("summary").focus();
}

// For a line that did nothing: the command that was probably meant, and the forms of all lines.
function mendView({ number, why }) {
  if (page.mode === "chain") return null;
  const [, word, meant] = /^unknown command `([^`]+)` \(`(\w+)`\?\)$/.exec(why) || [];
  const mend = () => {
    const place = page.notes.places[number - 1];
    const lines = page.notes.all.map((it, i) => (i === place ? it.replace(word, () => meant) : it));
    rewrite(lines, page.at);
    byId("forth").focus();
  };
  return h("p", { class: "answers mend" },
    meant && h("button", { type: "button", class: "main", onclick: mend }, "Write ", h("code", {}, meant)),
    h("button", { type: "button", onclick: seeForms }, "How lines are written"));
}

// How many replies were predicted, and how many of the predictions were right.
function showScore() {
  const all = page.steps.filter(step => step.expected);
  const right = all.filter(step => step.isMet);
  const isShown = isExercise() || (all.length > 0 && !page.known);
  byId("score").hidden = !isShown;
  if (!isShown) return;
  const said = `${right.length} of ${all.length} predicted replies are right; `
    + `${page.steps.filter(isUnsolved).length} lines have no prediction.`;
  const graded = isExercise() ? `${gradeOf()} ` : "";
  byId("score").replaceChildren(said, " ", graded, isExercise() && page.text !== unsolved(page.known.text)
    ? h("button", { type: "button", onclick: askAnew }, "Begin again") : "");
}

function anew() {
  keep(`text.${page.known.name}`, null);
  open(page.known.mode, { name: page.known.name });
}

// ---- captures

async function openFile(file) {
  const bytes = await unpacked(file);
  const isText = /\.txt$/i.test(file.name) || (file.type === "text/plain" && !/cap/i.test(file.name));
  if (isText) {
    await openText(file.name.replace(/\.txt$/i, ""), new TextDecoder().decode(bytes).replace(/^\ufeff/, ""));
    return;
  }
  const { fault, records } = page.engine.records(bytes), script = captureScript(page.engine, records);
  const name = file.name.replace(/\s+/g, " "), causes = records.length ? [script.fault, fault] : [fault, script.fault];
  const told = `${name}: ${causes.find(Boolean)}`;
  if (script.fault) {
    byId("trouble").textContent = told;
    return;
  }
  const { all, ip, ours, taken } = script.counts, ended = fault ? ` Reading ended: ${fault}.` : "";
  const first = taken < ours ? ` The script has the first ${taken} of these; bsdplay why reads all.` : "";
  const read = `${plural(all, "record")}, ${plural(ip, "IPv4 packet")}, ${ours} for ${script.address}`;
  const head = `# ${name}: ${read}.${first}${ended}\n`;
  openBeside("run", { text: head + script.text, mine: name, place: script.place });
  if (fault) byId("trouble").textContent = `${told}. The records before it are shown.`;
}

// Opens a script. A saved exercise is opened as that exercise; if it was begun here too, the page asks.
async function openText(name, text) {
  const exercise = LISTS.exercises.find(it => it.name === name), begun = exercise && kept(`text.${name}`);
  if (!exercise) return openBeside(page.mode, { text, mine: name, options: page.options });
  const isOther = begun && begun !== text;
  if (isOther && !await ask("Replace the replies that you wrote here with those of the file?", "Replace")) {
    return openNamed(exercise);
  }
  keep(`text.${name}`, text);
  return openNamed(exercise);
}

function listenForFiles() {
  const drop = byId("drop"), show = isShown => (drop.hidden = !isShown);
  addEventListener("dragover", event => {
    event.preventDefault();
    show(true);
  });
  addEventListener("dragleave", event => event.relatedTarget || show(false));
  addEventListener("drop", event => {
    event.preventDefault();
    show(false);
    if (event.dataTransfer.files[0]) openFile(event.dataTransfer.files[0]);
  });
}
