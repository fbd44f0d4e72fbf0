"use strict";
// The page: its state, what is selected, and what is shown.

const byId = id => document.getElementById(id);

const page = {
  mode: "run",
  // the lesson, exercise or example that is open, or the name of a script of yours and its text as it was kept last
  known: null,
  mine: null,
  stored: "",
  // the sizes of a pool of chains, or the settings of a machine
  options: { ...DEFAULTS },
  steps: [],
  at: 0,
  guesses: new Map(),
  firstQuestion: null,
  drawsAll: false,
  held: new Map(),
  drawn: new Map(),
  chains: [],
  // after how many lines of `bsdudp run` the n-th line ends
  ranAfter(n) {
    return n ? this.ends[n - 1] : 0;
  },
  // the state after this many lines
  heldAfter(n) {
    const own = this.own.slice(0, this.ranAfter(n));
    if (!this.held.has(n)) this.held.set(n, new Held(this.engine, this.config, own.map(it => it.line)));
    return this.held.get(n);
  },
  // the state of one of several hosts after this many of its own lines
  heldOf(host, n) {
    const key = `${host.name} ${n}`;
    if (!this.held.has(key)) this.held.set(key, new Held(this.engine, host.config, host.lines.slice(0, n)));
    return this.held.get(key);
  },
  // the chains after this many lines, mbuf by mbuf; those of a few places are kept
  drawnAfter(n) {
    if (this.drawn.size > 16) this.drawn.clear();
    if (!this.drawn.has(n)) {
      const slots = n ? [...this.steps[n - 1].chains.keys()] : [];
      this.drawn.set(n, drawnChains(this.engine, this.config,
        this.steps.slice(0, n).map(it => it.line), slots));
    }
    return this.drawn.get(n);
  },
  // the same in the form of a figure. In a long script, numbers change from line to line.
  chainsAfter(n) {
    if (n > MOST_LINES) return chainState(this.drawnAfter(n), null);
    while (this.chains.length <= n) {
      this.chains.push(chainState(this.drawnAfter(this.chains.length), this.chains[this.chains.length - 1]));
    }
    return this.chains[n];
  },
  noteOf(step) {
    return this.notes.notes[step.number - 1];
  },
};

// The functions that play a script of each kind, and show a line of it.
const PLAYS = {
  run: { trace: ({ engine, text }) => tracePlay(engine, text), view: stackView },
  chain: { trace: ({ engine, config, notes }) => playChains(engine, config, notes.lines), view: chainView },
  wire: { trace: ({ engine, text }) => traceHosts(engine, text), view: wireView },
};

// ---- display

const badgesOf = step => step.changed.map(({ host, name, by, isLost }) =>
  h("span", { class: !DROPS.has(name) && !isLost ? "badge" : apartOf(step) ? "badge card" : "badge drop" },
    `${host ? `${host} ` : ""}+${by} ${name}`));

// Whether the expected reply of a line was met.
const markOf = step => isMetShown(step) && (partOfKey(step) ? h("span", { class: "badge card" }, "✓ in part")
  : step.isMet ? h("span", { class: "badge came" }, "✓ expected")
  : h("span", { class: "badge drop" }, "✗ expected ", step.expected));

// A line of the script: its note, its meaning, its reply and its counters; or only the line, if a question about it
// comes first.
function rowOf(step, i) {
  const isAsked = Boolean(questionOf(i)), isHidden = isAsked || isBehindQuestion(i), note = page.noteOf(step);
  const change = step.pool.used - step.before.used;
  const delta = change ? `${change > 0 ? "+" : "−"}${plural(Math.abs(change), "mbuf")}` : "";
  const told = [note && h("span", { class: "row-note" }, note),
    h("span", { class: "of-screen" }, h("code", {}, step.kind === "bad" ? cut(step.line, 24) || "an empty line"
      : step.verb), " ", step.tells), h("code", { class: "of-print" }, groupedDigits(cut(step.line, 400))),
    h("span", { class: "after" },
      h("code", { class: step.isOk ? "answer" : "answer no" }, replyIn(step)),
      badgesOf(step), markOf(step), h("span", { class: "delta" }, delta))];
  const alone = [isExercise() && note && h("span", { class: "row-note" }, note), askedLine(step),
    h("span", { class: "after" }, h("span", { class: "answer" }, isAsked ? askedReply() : "hidden"))];
  return h("li", {}, h("button", { class: "row", type: "button", tabindex: -1, onclick: () => chooseRow(i) },
    h("span", { class: "number" }, String(page.notes.places[i] + 1)),
    isHidden ? h("span", { class: "sign", "aria-hidden": "true" }, "?") : signOf(step),
    h("span", { class: "what" }, isHidden ? alone : told)));
}

// The reply to a line that asks: in a printed exercise it's a line to write on.
const askedReply = () => (isExercise()
  ? [h("span", { class: "of-screen" }, "a question"), h("span", { class: "of-print to-write" })] : "a question");

// A reply in a row: in print it's whole.
function replyIn(step) {
  const said = step.says || step.reply;
  const brief = step.kind === "bad" ? said : briefReply(step, step.kind === "ask" ? 60 : 44);
  return brief === said ? said
    : [h("span", { class: "of-screen" }, brief), h("span", { class: "of-print" }, cut(said, 400))];
}

// A reply on the screen. A datagram whose bytes repeat is written as runs.
function briefReply(step, most) {
  const said = step.says || step.reply, runs = step.data && runsOf(step.data, 32);
  return runs ? `${said.split(" ").slice(0, 3).join(" ")} ${runs}` : cut(said, most);
}

// A line in a question. In an exercise the student works with its bytes, so they are all there; in a lesson a packet of
// many digits is shown in words.
function askedLine(step, most = 200) {
  if (!isExercise() && step.kind === "in" && step.packet && step.line.length > 60) {
    return [h("code", {}, step.verb), " ", step.packet.tells];
  }
  return h("code", { class: "asked" }, groupedDigits(cut(step.line, most)));
}

// A text in which digits of bytes are in groups of four, so that they can be wrapped and counted.
const groupedDigits = text => text.split(/\b([0-9a-f]{16,})/).flatMap((part, i) =>
  (i % 2 ? part.match(/.{1,4}/g).flatMap(four => [h("span", { class: "four" }, four), h("wbr")]) : [part]));

function refreshRows() {
  findQuestion();
  byId("rows").replaceChildren(...page.steps.map(rowOf), ...asksOf().map(askView));
}

// The text of a line for screen readers: its place in the script, what happened, and its note.
function spoken(step) {
  const refusal = step.isOk ? "" : ` Refused: ${step.error || step.why || step.reply}.`;
  const how = apartOf(step)?.head || "Dropped";
  const drops = step.drops.map(it => ` ${how}: ${causeIn(step, it.name)}${bothSums(step, it.name)}.`).join("");
  return `line ${page.notes.places[step.number - 1] + 1}: ${step.verb} ${step.tells}.${refusal}${drops} `
    + `${page.noteOf(step) || ""}`;
}

// The same for a line whose reply is hidden.
function spokenOf(step, question) {
  const line = `line ${page.notes.places[page.at] + 1}: ${cut(step.line, 80)}.`;
  if (question) return `${line} A question: ${question.text}`;
  if (!isBehindQuestion(page.at)) return spoken(step);
  return `${line} It is hidden until you answer the question of line ${page.notes.places[page.firstQuestion] + 1}.`;
}

// The right column.
function viewsOf(step, question) {
  if (question) return [questionView(step, page.at, question)];
  return isBehindQuestion(page.at) ? [hiddenView(step)] : PLAYS[page.mode].view(page, step).filter(Boolean);
}

let stopFigures = [];

// Selects a line, and shows it.
function select(i) {
  if (!page.steps.length) return;
  page.at = Math.max(0, Math.min(page.steps.length - 1, i));
  if (isEmbedded) leadToWhole();
  const step = page.steps[page.at], question = questionOf(page.at);
  showRow();
  byId("curve").replaceChildren(...curve(page.steps, page.at, stepTo, page.firstQuestion ?? page.steps.length));
  const views = viewsOf(step, question), guess = !question && guessView(page.at);
  if (guess) views[0].append(guess);
  for (const stop of stopFigures) stop();
  byId("look").replaceChildren(...views);
  stopFigures = [...byId("look").querySelectorAll(".figure-host")].map(host => MbufFigure.mount(host, host.figure));
  byId("place").textContent = `${step.number} of ${page.steps.length}`;
  byId("said").textContent = spokenOf(step, question);
  for (const mark of byId("gutter").querySelectorAll(".here")) mark.classList.remove("here");
  byId("gutter").children[page.notes.places[page.at]].classList.add("here");
}

const IS_LOW = matchMedia("(max-width: 899px) and (max-height: 599px)");

// Steps to a line. The card at the beginning has been read by then. In a low window with one column, the head is scrolled
// away, so that the figure is on the screen.
function stepTo(i) {
  showStart(false);
  select(i);
  const { top } = byId("right").getBoundingClientRect();
  if (top > 0 && IS_LOW.matches && document.body.hasAttribute("data-folded")) scrollBy(0, top);
}

// Chooses a row. If it's chosen already and asks a question, the focus moves there. Where the lines can be folded, they
// are, so that the chosen line is on the screen.
function chooseRow(i) {
  const isAgain = i === page.at && questionOf(i), canFold = byId("fold").getClientRects().length > 0;
  if (canFold) fold(true);
  stepTo(i);
  if (isAgain) byId("look").querySelector(".predict input").focus();
  else if (canFold) byId("forth").focus();
}

// In one column, the lines and the buttons of a script are folded.
function fold(isFolded) {
  document.body.toggleAttribute("data-folded", isFolded);
  byId("fold").setAttribute("aria-expanded", String(!isFolded));
  if (!isFolded && page.steps.length) showRow();
}

// Moves the focus to the selected row, or to the steps if the rows are folded.
function focusRow() {
  byId("rows").querySelector("[aria-current]")?.focus();
  if (!document.activeElement.matches(".row")) byId("forth").focus();
}

// Steps to the next line. After the last line of an exercise are its questions: returns whether the focus moved there.
function goOn() {
  const fields = page.at === page.steps.length - 1 ? [...byId("rows").querySelectorAll(".ask input")] : [];
  if (!fields.length) return stepTo(page.at + 1);
  showStart(false);
  fold(false);
  (fields.find(it => !it.value) || fields[0]).focus();
  return true;
}

// Marks the row of the selected line, and scrolls it into view. The Tab key reaches this row alone.
function showRow() {
  const list = byId("rows");
  for (const row of list.querySelectorAll("[aria-current]")) {
    row.removeAttribute("aria-current");
    row.tabIndex = -1;
  }
  const row = list.children[page.at].firstChild, top = row.offsetTop;
  row.setAttribute("aria-current", "step");
  row.tabIndex = 0;
  if (top < list.scrollTop || top + row.offsetHeight > list.scrollTop + list.clientHeight) list.scrollTop = top - 60;
}

// The tab of a script: one for several hosts begins with a line `host`.
function showTab() {
  const isEmpty = !readNotes(page.text).lines.length;
  if (page.mode !== "chain" && !isEmpty) page.mode = hasHosts(page.text) ? "wire" : "run";
  document.body.dataset.mode = page.mode;
  for (const tab of document.querySelectorAll("[data-tab]")) tab.setAttribute("aria-pressed",
    String(tab.dataset.tab === page.mode));
}

// Plays the script again, after any change of it.
function replay(place) {
  page.text = byId("script").value;
  showTab();
  page.notes = readNotes(page.text);
  page.config = configOf(page.options);
  page.held.clear();
  page.drawn.clear();
  page.chains = [];
  const { code, ...traced } = page.config.wrong ? { code: 0, steps: [] } : PLAYS[page.mode].trace(page);
  Object.assign(page, { hosts: null, own: null, ends: null }, traced);
  byId("trouble").textContent = page.config.wrong ? `--${page.config.wrong}: no number in its range` : FAULTS[code];
  page.keys = keysOf();
  showGutter();
  byId("command").textContent = page.mode === "chain" ? `bsdudp chain${optionWords(page.options)}`
    : "bsdplay script.txt";
  for (const part of ["look", "curve", "place", "said"]) byId(part).replaceChildren();
  if (!page.steps.length) byId("look").append(emptyView());
  refreshRows();
  showDrops();
  showScore();
  showMachine();
  select(place);
}

// A line to begin with, in each tab.
const FIRST_LINES = { run: "socket", chain: "user 0 6869", wire: "host a --addr 10.0.0.1" };

const emptyView = () => h("p", { class: "panel" }, "This script has no line yet. Write one in \"Edit\", such as ",
  h("code", {}, FIRST_LINES[page.mode]), ". Its reply, and what it changes, are shown here.");

// The numbers of the lines in the editor. Those of lines that can't be played are red, and the first of these is named
// below.
function showGutter() {
  const faults = new Map(page.steps.filter(it => it.kind === "bad").map(it => [page.notes.places[it.number - 1], it]));
  byId("gutter").replaceChildren(...page.notes.all.map((line, i) =>
    h("span", { class: faults.has(i) ? "bad-line" : null }, String(i + 1))));
  const [[place, step] = []] = faults;
  const more = faults.size > 1 ? ` ${plural(faults.size - 1, "more line")} can't be played.` : "";
  byId("faulty").replaceChildren(...(step ? [`Line ${place + 1}: `, ...worded(step.says || step.reply), `.${more}`]
    : []));
}

// The options next to the script. Those of hosts are in the script.
const usedOptions = () => (page.mode === "chain" ? ["mbufs", "clusters"] : []);
const optionWords = options => Object.keys(DEFAULTS).filter(name => options[name] !== DEFAULTS[name])
  .map(name => ` --${name} ${options[name]}`).join("");

function showOptions() {
  const inputOf = name =>
    h("input", { id: `option-${name}`, value: page.options[name], spellcheck: "false", autocomplete: "off",
    oninput: event => {
    page.options[name] = event.target.value;
    later();
  } });
  byId("options").replaceChildren(...usedOptions().map(name => h("label", {}, `--${name} `, inputOf(name))));
}

function showMachine() {
  const { mbufs, clusters } = page.options;
  byId("machine").hidden = !usedOptions().length;
  byId("machine-says").textContent = `The pool: ${mbufs} mbufs, ${clusters} clusters`;
}

// ---- selection

// Opens a script: one of the page's scripts by its name, or a text, which becomes the script of yours with the name
// `mine`, or a number after it if another has that.
function open(mode, { name = "", text = "", mine = FIRST_NAME, options = DEFAULTS, place = 0 }) {
  const known = scriptNamed(mode, name) || null;
  showStart(false);
  Object.assign(page, { mode, known, mine: known ? null : freeName(mine, text), stored: text, guesses: new Map(),
    drawsAll: false, options: known ? optionsOf(known.words) : { ...DEFAULTS, ...options } });
  byId("left-there").textContent = "";
  const own = known && (known.kind === "exercises" ? kept(`text.${known.name}`) || unsolved(known.text) : known.text);
  byId("script").value = known ? own : text;
  byId("script").scrollTop = 0;
  showLeft(known || text ? "read" : "edit");
  replay(place);
  showOptions();
  keepText();
  showTitle();
}

// Opens the text of a file or a link. If a script of yours was open, the page says that it's in the list.
function openBeside(mode, script) {
  const left = page.mine && page.text.trim() && page.mine;
  open(mode, script);
  if (left && left !== page.mine) byId("left-there").textContent = `“${left}” is in the list, under “Yours”.`;
}

const openFirst = mode => open(mode, { name: LISTS.lessons.find(it => it.mode === mode).name });

// The script is read line by line, or edited.
function showLeft(how) {
  document.body.dataset.left = how;
  if (how === "edit") fold(false);
  for (const name of ["read", "edit"]) byId(name).setAttribute("aria-pressed", String(name === how));
}

// This browser keeps your scripts, the exercises that were begun, and the name of the script that was open last.
function keepText() {
  const { mode, known, mine, stored, options } = page, text = byId("script").value;
  if (mine) Object.assign(page, { mine: keepBeside(mine, stored, { mode, text, options }), stored: text });
  else if (isExercise() && text !== unsolved(known.text)) keep(`text.${known.name}`, text);
  if (page.mine !== mine) showTitle();
  if (!isEmbedded) keep("last", { mode, name: known ? known.name : "", mine: page.mine });
  showUnstored();
}

// Opens a script of yours by its name, or an empty one to write in.
function openOwn(name = lastOwn()) {
  const own = name && ownScript(name);
  if (own && Object.hasOwn(PLAYS, own.mode)) open(own.mode, { ...own, mine: name });
  else open("run", { text: "" });
  if (!own) {
    showLeft("edit");
    byId("script").focus();
  }
}

// A lesson or an example that is changed becomes a script of yours, and stays in the list as it was. An exercise isn't
// copied: its text is what the student hands in. A link has the text as it was.
function becomeOwn() {
  const { known } = page;
  if (location.hash) history.replaceState(null, "", location.href.split("#")[0]);
  if (!known || isExercise()) return;
  const title = known.kind === "lessons" ? `Lesson ${parseInt(known.title, 10)}` : known.title;
  Object.assign(page, { known: null, mine: freeName(`${title}, changed`, byId("script").value) });
  showTitle();
}

// After a key in the script or in an option, when no other follows at once. Until then the text is kept.
let timer = 0;
function later() {
  becomeOwn();
  showStart(false);
  keepText();
  clearTimeout(timer);
  timer = setTimeout(() => replay(page.at), 150);
}

// Replaces the text of the script, and plays it.
function rewrite(lines, place) {
  byId("script").value = lines.join("\n") + "\n";
  becomeOwn();
  replay(place);
  keepText();
}

// The line of the script with the cursor is selected.
function follow() {
  const script = byId("script"), line = script.value.slice(0, script.selectionStart).split("\n").length - 1;
  const i = page.notes.places.findIndex(place => place >= line);
  if (i >= 0 && i < page.steps.length && i !== page.at) stepTo(i);
}

// ---- a packet made by hand

// What is wrong with a field of the form, or an empty text.
function packetFault(value) {
  const numbers = { "source-port": "the first port", "destination-port": "the second port", id: "the identification" };
  for (const [name, what] of [["source", "from"], ["destination", "to"]]) {
    const isAddress = addressIn(value(name)) !== null;
    if (!isAddress) return [name, `“${what}” is no address: four numbers of 0 to 255 with dots between, as 10.0.0.2`];
  }
  for (const [name, what] of Object.entries(numbers)) {
    if (numberIn(value(name), 65535) === null) return [name, `${what} is no number of 0 to 65,535`];
  }
  return null;
}

function putPacket() {
  const value = name => byId(`packet-${name}`).value.trim(), fault = packetFault(value);
  const says = byId("packet-fault-says");
  says.hidden = !fault;
  for (const it of byId("packet").querySelectorAll("[aria-invalid]")) it.removeAttribute("aria-invalid");
  if (fault) {
    says.textContent = `Refused: ${fault[1]}.`;
    byId(`packet-${fault[0]}`).setAttribute("aria-invalid", "true");
    byId(`packet-${fault[0]}`).focus();
    return;
  }
  const line = packetLine(page.engine, { source: value("source"), sourcePort: value("source-port"),
    destination: value("destination"), destinationPort: value("destination-port"), id: value("id"),
    text: byId("packet-data").value, fault: value("fault") });
  byId("maker").close();
  putLine(line);
}

// Inserts a line after the selected one. The focus moves to an element of the new view, if one is named.
function putLine(line, focus) {
  const all = page.notes.all, isEmpty = !page.steps.length;
  const place = isEmpty ? all.length : page.notes.places[page.at] + 1;
  rewrite([...all.slice(0, place), line, ...all.slice(place)], isEmpty ? 0 : page.at + 1);
  const there = focus && (byId(focus) || document.querySelector(".puts button"));
  if (there) there.focus();
}

// ---- links and files

// What a link contains: the script, its machine, and the selected line.
function addressOf() {
  const changed = usedOptions().filter(name => page.options[name] !== DEFAULTS[name])
    .map(name => [name, page.options[name]]);
  return new URLSearchParams([["mode", page.mode], ...changed, ["line", page.at + 1],
    ["script", byId("script").value]]);
}

function link() {
  history.replaceState(null, "", `#${addressOf()}`);
  if (navigator.clipboard) navigator.clipboard.writeText(location.href).catch(() => {});
  byId("said").textContent = "The address of this page holds the script now.";
  byId("link").textContent = "Link copied";
  setTimeout(() => (byId("link").textContent = "Link"), 1500);
}

// With `?embed` in its address the page is part of another one: it has no head, and a link to the whole page with the
// script that is open.
const isEmbedded = new URLSearchParams(location.search).has("embed");

function leadToWhole() {
  const { mode, known } = page, own = known && [["mode", mode], ["name", known.name], ["line", page.at + 1]];
  byId("whole").href = `${location.href.split(/[?#]/)[0]}#${own ? new URLSearchParams(own) : addressOf()}`;
}

function openLink() {
  const asked = new URLSearchParams(location.hash.slice(1));
  const mode = Object.hasOwn(PLAYS, asked.get("mode")) ? asked.get("mode") : "run";
  const place = Math.max(0, (+asked.get("line") || 1) - 1);
  if (asked.has("script")) {
    const options = Object.fromEntries([...asked].filter(([name]) => name in DEFAULTS));
    openBeside(mode, { text: asked.get("script"), mine: "Script of a link", options, place });
  } else if (asked.has("name")) open(mode, { name: asked.get("name"), place });
  else openLast();
}

// Without a link: the script that was open last, or the first lesson with a card that introduces the page.
function openLast() {
  const last = kept("last"), { mode, name, mine } = last || {};
  if (scriptNamed(mode, name)) open(mode, { name });
  else if (last && lastOwn()) openOwn(ownScript(mine) ? mine : lastOwn());
  else openNamed(LISTS.lessons[0]);
  showStart(!last && !isEmbedded);
}

const openNamed = ({ mode, name }) => open(mode, { name });

function showStart(isShown) {
  byId("start").hidden = !isShown;
  byId("help").setAttribute("aria-expanded", String(isShown));
}

function save() {
  const url = URL.createObjectURL(new Blob([byId("script").value], { type: "text/plain" }));
  const name = page.known ? page.known.name : page.mine.replace(/\.\w+$/, "").replace(/[^\w-]+/g, "_");
  h("a", { href: url, download: `${name}.txt` }).click();
  setTimeout(() => URL.revokeObjectURL(url), 1000);
}

async function load(event) {
  const file = event.target.files[0];
  if (file) await openFile(file);
  event.target.value = "";
}

// ---- colours

function setTheme(theme) {
  document.documentElement.dataset.theme = theme;
  byId("theme").textContent = theme === "dark" ? "Light" : "Dark";
}

// Larger texts and figures, for a projector. This browser keeps the choice.
function setSize(size) {
  document.documentElement.dataset.size = size;
  byId("size").setAttribute("aria-pressed", String(size === "large"));
  keep("size", size === "large" ? size : null);
}

// ---- start

function listen() {
  const on = (id, event, act) => byId(id).addEventListener(event, act);
  on("script", "input", later);
  on("script", "click", follow);
  on("script", "keyup", event => event.key.startsWith("Arrow") && follow());
  on("script", "scroll", () => (byId("gutter").style.transform = `translateY(${-byId("script").scrollTop}px)`));
  on("choice", "change", event => {
    const [, mode, name] = /^(\w+)\/(.*)$/s.exec(event.target.value);
    if (mode === "own") openOwn(name);
    else open(mode, { name });
  });
  on("next-lesson", "click", openNext);
  on("skip", "click", () => byId("forth").focus());
  on("fold", "click", () => fold(byId("fold").getAttribute("aria-expanded") === "true"));
  on("read", "click", () => showLeft("read"));
  on("edit", "click", () => showLeft("edit"));
  on("help", "click", () => showStart(byId("start").hidden));
  on("leave", "click", () => {
    showStart(false);
    byId("help").focus();
  });
  on("begin", "click", () => {
    openNamed(LISTS.lessons[0]);
    byId("forth").focus();
  });
  on("own", "click", () => openOwn());
  on("forget", "click", askForget);
  on("see-forms", "click", seeForms);
  on("capture", "click", () => byId("load").click());
  on("first", "click", () => stepTo(0));
  on("back", "click", () => stepTo(page.at - 1));
  on("forth", "click", goOn);
  on("last", "click", () => stepTo(page.steps.length - 1));
  on("make", "click", () => byId("maker").showModal());
  on("packet", "submit", event => { event.preventDefault(); putPacket(); });
  on("cancel", "click", () => byId("maker").close());
  on("about", "click", () => byId("proved").showModal());
  on("enough", "click", () => byId("proved").close());
  on("asks-yes", "click", () => byId("asks").close("yes"));
  on("asks-no", "click", () => byId("asks").close("no"));
  on("link", "click", link);
  on("save", "click", save);
  on("load", "change", load);
  on("theme", "click", () => setTheme(document.documentElement.dataset.theme === "dark" ? "light" : "dark"));
  on("size", "click", () => setSize(document.documentElement.dataset.size === "large" ? "normal" : "large"));
  for (const tab of document.querySelectorAll("[data-tab]")) tab.addEventListener("click",
    () => openFirst(tab.dataset.tab));
  listenForFiles();
  addEventListener("hashchange", openLink);
  addEventListener("keydown", stepByKey);
}

// Arrow keys step, except in fields, in elements that they scroll, and in dialogs. Digits choose an answer. In the list
// of scripts, which has the focus after a choice, up and down choose another script, left and right step through this
// one, and a digit that is no answer does nothing. Otherwise the browser would choose the lesson with this number.
function stepByKey(event) {
  if (event.altKey || event.ctrlKey || event.metaKey) return;
  if (event.target.id === "choice" && /^\d$/.test(event.key)) event.preventDefault();
  if (/^[1-9]$/.test(event.key)) return chooseOption(event);
  const isList = event.target.id === "choice";
  if (!isList && event.target.closest("textarea, input, select, .scroller, dialog")) return;
  const by = { ArrowDown: 1, ArrowRight: 1, ArrowUp: -1, ArrowLeft: -1 }[event.key];
  if (!by || (isList && /Up|Down/.test(event.key))) return;
  event.preventDefault();
  if (by > 0 ? goOn() : stepTo(page.at - 1)) return;
  if (event.target.closest("#rows")) byId("rows").children[page.at].firstChild.focus();
}

function chooseOption(event) {
  const option = byId("look").querySelectorAll(".predict input[type=radio]")[event.key - 1];
  if (!option || event.target.closest("textarea, dialog, input:not([type=radio])")) return;
  event.preventDefault();
  option.checked = true;
  option.focus();
}

async function begin() {
  setTheme(matchMedia("(prefers-color-scheme: dark)").matches ? "dark" : "light");
  setSize(kept("size") || "normal");
  document.body.toggleAttribute("data-embed", isEmbedded);
  byId("whole").hidden = !isEmbedded;
  byId("whole").href = location.pathname;
  try {
    page.engine = await Engine.load(Uint8Array.from(atob(MODULE), letter => letter.charCodeAt(0)));
  } catch (fault) {
    byId("trouble").textContent = `This browser doesn't run the program: ${fault.message}`;
    return;
  }
  showScripts();
  showForms();
  listen();
  openLink();
  document.body.dataset.ready = "yes";
}

begin();
