// The functions that tests/page calls in the page: `faultsOf(tryKeys)` returns the faults that a test finds.
"use strict";

let faults = [];
const fault = text => faults.push(text);

async function faultsOf(test, ...words) {
  faults = [];
  await test(...words);
  return [...new Set(faults)].slice(0, 24);
}

// The most lines of an example that are tested: the last one, and others at equal distances.
const LOOKS = 12;

// Plays a script in the page and tests its lines: all lines of a lesson, and of an example that isn't too long.
function tryScript(mode, text, words, isLesson) {
  open(mode, { text, options: optionsOf(words) });
  revealAll();
  if (page.mode !== mode) fault(`it's opened under ${page.mode}`);
  page.steps.forEach((step, i) => {
    const isOther = step.expected !== null && !step.isMet;
    if (isOther) fault(`line ${page.notes.places[i] + 1}: it's answered ${step.says || step.reply}`);
  });
  const by = isLesson ? 1 : Math.ceil(page.steps.length / LOOKS);
  for (let i = page.steps.length - 1; i >= 0; i -= by) {
    select(i);
    if (!byId("look").firstChild) fault(`line ${i + 1} shows nothing`);
    ({ run: tryOwners, chain: tryDrawing, wire: tryHosts })[mode](i);
  }
}

// Answers all questions, so that each line shows what it did.
function revealAll() {
  page.steps.forEach((_, i) => page.guesses.set(i, null));
  refreshRows();
  select(page.at);
}

const mbufsOwned = ({ owned }) => Object.values(owned).reduce((n, it) => n + it.mbufs, 0);

// The owners' buffers are those that aren't free, the places of the bytes are drawn, and each datagram and packet has
// the number of buffers that the program says.
function tryOwners(i) {
  const step = page.steps[i], held = page.heldAfter(step.number), { state } = held;
  if (mbufsOwned(held) !== step.pool.used) {
    fault(`line ${i + 1}: ${mbufsOwned(held)} mbufs have an owner, and ${step.pool.used} are in use`);
  }
  if (!document.querySelector("#look .mbuf-figure")) fault(`line ${i + 1} has no figure`);
  const waits = held.sockets.reduce((n, it) => n + it.queue.reduce((m, one) => m + one.data.length + 16, 0), 0);
  const drawn = state.sockets.reduce((n, it) => n + it.cc, 0);
  if (waits !== drawn || state.output.len !== held.output.length) {
    fault(`line ${i + 1}: ${drawn} bytes are drawn in sockets, and ${waits} wait; or packets`);
  }
}

// The same for each host on a wire, and each has a place in the view.
function tryHosts(i) {
  const step = page.steps[i], names = [...step.now.keys()];
  const shown = document.querySelectorAll(".hosts > .column").length;
  if (shown !== names.length) fault(`line ${i + 1}: ${shown} machines are shown of ${names.length}`);
  for (const [name, n] of step.now) {
    const host = page.hosts.get(name), held = page.heldOf(host, n), { pool } = stateOf(step, name, page.hosts);
    const own = mbufsOwned(held);
    if (own !== pool.used) fault(`line ${i + 1}: at ${name} ${own} mbufs have an owner of ${pool.used} in use`);
  }
}

// The drawing of each chain has the mbufs that it shows, with the reference counts of their clusters.
function tryDrawing(i) {
  const step = page.steps[i], chains = page.drawnAfter(step.number), clusters = clustersIn(chains);
  const shapeOf = it => [it.isCluster, it.bytes.length, it.isCluster ? clusters.get(it.cluster).length : undefined];
  const drawn = JSON.stringify([...chains].map(([slot, mbufs]) => [slot, mbufs.map(shapeOf)]));
  const shown = JSON.stringify([...step.chains]
    .map(([slot, { mbufs }]) => [slot, mbufs.map(it => [it.isCluster, it.bytes, it.count])]));
  if (drawn !== shown) fault(`line ${i + 1}: ${drawn} is drawn, and ${shown} shown`);
  const state = page.chainsAfter(step.number), all = [...chains.values()].flat();
  if (state.mbufs.length !== all.length || new Set(state.mbufs.map(it => it.n)).size !== all.length) {
    fault(`line ${i + 1}: the figure has other mbufs`);
  }
  if (chains.size && !document.querySelector("#look .mbuf-figure svg")) fault(`line ${i + 1} has no figure`);
}

// ---- layout and colours

const isSeen = it => {
  const box = it.getBoundingClientRect(), style = getComputedStyle(it);
  return box.width > 0 && box.height > 0 && style.visibility !== "hidden" && style.clipPath === "none"
    && !it.matches("input[type=file]") && !it.closest("details:not([open]) > :not(summary)");
};
const nameOf = it =>
  `${it.tagName.toLowerCase()}${it.id ? "#" + it.id : it.classList.length ? "." + it.classList[0] : ""}`;

// The boxes of an element, of each of its lines if it's inline, without the parts that a scrolled parent cuts off.
function seenBoxes(it) {
  const cuts = [];
  for (let box = it.parentElement; box; box = box.parentElement) {
    const style = getComputedStyle(box);
    if (style.overflowX !== "visible" || style.overflowY !== "visible") cuts.push(box.getBoundingClientRect());
  }
  const cutBox = ({ left, top, right, bottom }) => cuts.reduce((box, by) => ({
    left: Math.max(box.left, by.left), top: Math.max(box.top, by.top),
    right: Math.min(box.right, by.right), bottom: Math.min(box.bottom, by.bottom),
  }), { left, top, right, bottom });
  return [...it.getClientRects()].map(cutBox).filter(box => box.right - box.left > 1 && box.bottom - box.top > 1);
}

const doOverlap = (a, b) => Math.min(a.right, b.right) - Math.max(a.left, b.left) > 1
  && Math.min(a.bottom, b.bottom) - Math.max(a.top, b.top) > 1;

// Elements with text of their own, or that take input. None may cover another.
function solid() {
  const within = document.querySelector("dialog[open]") || document.body;
  const hasText = it => [...it.childNodes].some(node => node.nodeType === 3 && node.data.trim());
  return [...within.querySelectorAll("*")]
    .filter(it => !it.closest("svg, option, select > *, script, style") && isSeen(it)
    && (within !== document.body || !it.closest("dialog"))
      && (hasText(it) || it.matches("input, select, textarea, svg, .bar")));
}

function tryOverlap() {
  const isSticky = it => it.closest(".bar-of") !== null;
  const all = solid().flatMap(it => seenBoxes(it).map(box => ({ it, box, isHead: isSticky(it) })));
  all.sort((a, b) => a.box.top - b.box.top);
  all.forEach((a, i) => {
    for (const b of all.slice(i + 1)) {
      if (b.box.top >= a.box.bottom) break;
      if (a.it === b.it || a.it.contains(b.it) || b.it.contains(a.it) || a.isHead !== b.isHead) continue;
      if (doOverlap(a.box, b.box)) fault(`${nameOf(a.it)} and ${nameOf(b.it)} overlap`);
    }
  });
}

// The texts of a drawn mbuf or cluster are inside its box, and none covers another.
function tryPicture() {
  for (const group of document.querySelectorAll(".mbuf-figure g[role=img]")) {
    const box = group.querySelector(".box").getBoundingClientRect();
    if (!box.width) continue;
    const texts = [...group.querySelectorAll("text")].filter(it => it.textContent.trim())
      .map(it => ({ text: it.textContent, box: it.getBoundingClientRect() }));
    texts.forEach((a, i) => {
      if (a.box.left < box.left - 1 || a.box.right > box.right + 1 || a.box.bottom > box.bottom + 1) {
        fault(`“${a.text}” stands out of its box`);
      }
      const other = texts.slice(i + 1).find(b => doOverlap(a.box, b.box) && Math.abs(b.box.top - a.box.top) < 4);
      if (other) fault(`“${a.text}” and “${other.text}” overlap`);
    });
  }
}

// No text is cut off at its side, unless dots mark that or it can be scrolled.
function tryWidth() {
  const wide = document.documentElement.scrollWidth;
  if (wide > innerWidth + 1) fault(`the page is ${wide} pixels wide`);
  for (const it of solid()) {
    const style = getComputedStyle(it), box = it.getBoundingClientRect();
    if (it.closest(".scroller") || it.matches("input, textarea, select")) continue;
    if (it.scrollWidth > it.clientWidth + 1 && style.overflowX !== "visible"
      && style.display !== "inline") fault(`${nameOf(it)} is cut off`);
    if (box.right > innerWidth + 1) fault(`${nameOf(it)} stands out on the right`);
  }
}

const channels = colour => (colour.match(/[\d.]+/g) || []).map(Number);
const light = ([r, g, b]) => [r, g, b].map(it => it / 255)
  .map(it => (it <= 0.03928 ? it / 12.92 : ((it + 0.055) / 1.055) ** 2.4))
  .reduce((sum, it, i) => sum + it * [0.2126, 0.7152, 0.0722][i], 0);

// The contrast of two colours, as a computed style names the first.
function contrastOf(colour, ground) {
  const [a, b] = [light(channels(colour)), light(ground)];
  return (Math.max(a, b) + 0.05) / (Math.min(a, b) + 0.05);
}

// The background of an element: the first colour that isn't transparent.
function behind(it) {
  for (let box = it; box; box = box.parentElement) {
    const [r, g, b, alpha = 1] = channels(getComputedStyle(box).backgroundColor);
    if (alpha === 1) return [r, g, b];
  }
  return [255, 255, 255];
}

// WCAG 2.1, 1.4.3. In drawings the text is on the paper's colour or on a shape's. style.css names those of shapes.
function tryContrast() {
  for (const it of solid().filter(it => !it.matches("svg, .bar"))) {
    const contrast = contrastOf(getComputedStyle(it).color, behind(it));
    if (contrast < 4.5) fault(`${nameOf(it)} has a contrast of ${contrast.toFixed(1)}`);
  }
  for (const text of document.querySelectorAll(".mbuf-figure text")) {
    const contrast = contrastOf(getComputedStyle(text).fill, underText(text)), name = text.getAttribute("class");
    if (contrast < 4.5) fault(`${name} in the figure has a contrast of ${contrast.toFixed(1)}`);
  }
}

// The background of a text in a figure: the last shape drawn there before it. A text on a pattern has its own outline.
function underText(text) {
  const box = text.getBoundingClientRect(), x = box.left + box.width / 2, y = box.top + box.height / 2;
  if (text.matches(".free, .unused")) return channels(getComputedStyle(text).stroke);
  const shapes = [...text.ownerSVGElement.querySelectorAll("rect.paper, rect.row, rect.part")].filter(it => {
    const at = it.getBoundingClientRect();
    return at.left <= x && x <= at.right && at.top <= y && y <= at.bottom;
  }).map(it => channels(getComputedStyle(it).fill)).filter(it => it.length >= 3);
  return shapes.length ? shapes[shapes.length - 1] : behind(text.ownerSVGElement.parentElement);
}

// WCAG 2.1, 1.4.11: the border of a field is visible.
function tryBorders() {
  for (const it of solid().filter(it => it.matches("input, select"))) {
    const contrast = contrastOf(getComputedStyle(it).borderTopColor, behind(it.parentElement));
    if (contrast < 3) fault(`the border of ${nameOf(it)} has a contrast of ${contrast.toFixed(1)}`);
  }
}

// In print only the selected line is shown, with the colours of its legends.
function tryPrint() {
  const isShown = it => it !== null && getComputedStyle(it).display !== "none";
  for (const name of ["header", ".ways-of", ".bar-of", "button.all"]) {
    if (isShown(document.querySelector(name))) fault(`${name} is printed`);
  }
  const marks = [...document.querySelectorAll("#look .legend span")].map(it => getComputedStyle(it, "::before"));
  const isClear = it => channels(it.backgroundColor)[3] === 0 && it.backgroundImage === "none";
  if (!marks.length) fault("no legend is printed");
  if (marks.some(it => it.printColorAdjust !== "exact" || isClear(it))) fault("a legend loses its colours in print");
}

// Hidden elements are invisible, whatever their style.
function tryHidden() {
  for (const it of document.querySelectorAll("[hidden]")) {
    if (it.getClientRects().length) fault(`${nameOf(it)} is hidden, and seen`);
  }
}

function tryLayout() {
  for (const look of [tryOverlap, tryPicture, tryWidth, tryContrast, tryBorders, tryHidden]) look();
}

// Arrow keys step, except in the script's field. A link restores a script. A packet made in the form is inserted.
function tryKeys() {
  const press = (it, key) => it.dispatchEvent(new KeyboardEvent("keydown", { key, bubbles: true, cancelable: true }));
  open("run", { name: "01_a_datagram" });
  press(document.body, "ArrowDown");
  press(byId("rows").firstChild.firstChild, "ArrowDown");
  if (page.at !== 2) fault("arrow keys don't step");
  press(byId("script"), "ArrowDown");
  if (page.at !== 2) fault("an arrow key in the script steps");
  const before = byId("script").value;
  link();
  open("chain", { text: "" });
  openLink();
  if (byId("script").value !== before || page.mode !== "run"
    || page.at !== 2) fault("a link doesn't bring the script back");
  byId("make").click();
  putPacket();
  if (page.steps[3].verb !== "rx" || page.at !== 3) fault("a packet that was made isn't put in");
}

// An invalid address or port is refused with the reason, and nothing is inserted.
function tryMaking() {
  for (const [field, value, right] of [["source", "300.1.1.1", "10.0.0.2"], ["destination-port", "99999", "7"],
    ["id", "-1", "1"]]) {
    open("run", { name: "01_a_datagram" });
    byId("make").click();
    byId(`packet-${field}`).value = value;
    putPacket();
    const isSaid = !byId("packet-fault-says").hidden && byId("packet-fault-says").textContent.includes("Refused");
    if (page.steps.length !== 12 || !byId("maker").open || !isSaid) fault(`${field} ${value} isn't refused`);
    byId(`packet-${field}`).value = right;
    putPacket();
    if (page.steps.length !== 13 || byId("maker").open) fault(`${field} ${right} isn't put in`);
  }
}

// The lessons follow one another across all tabs. A question hides the reply.
function tryGuide() {
  const names = [];
  openNamed(LISTS.lessons[0]);
  for (; page.known && names.length < 99; openNext()) {
    if (names.includes(page.known.name)) break;
    names.push(page.known.name);
    if (byId("next-lesson").hidden) break;
  }
  if (names.join() !== LISTS.lessons.map(it => it.name).join()) fault(`the lessons follow as ${names.join()}`);
  LISTS.lessons.forEach(tryQuestions);
  const piece = (from, rest) => `rx udp 10.0.0.2:5000 > 10.0.0.1:7 "hello, hello" id 9 badudp at ${from} ${rest}\n`;
  open("run", { text: `socket\nbind 3 0.0.0.0 7\n${piece(0, "more size 16")}${piece(16, "last")}`, place: 3 });
  const [, came, right] = /0x(\w+) came, and 0x(\w+) would be right/.exec(byId("look").textContent) || [];
  const isNext = came && parseInt(came, 16) === parseInt(right, 16) + 1;
  if (!isNext) fault("beside a wrong checksum of fragments the right one isn't shown");
  open("run", { text: "rx udp 10.0.0.2:5000 > 10.0.0.1:7 \"hi\" badudp\n" });
  const said = byId("said").textContent;
  if (!/^line 1: .*Dropped: .*0x6fdf/.test(said)) fault(`a screen reader hears: ${said}`);
}

// After a wrong guess, the right one is shown.
function tryQuestions({ mode, name, title }) {
  open(mode, { name });
  const i = page.firstQuestion;
  if (i === null) return fault(`${title} asks nothing`);
  select(i);
  const wrong = page.notes.questions[i].answers.findIndex(it => !it.isRight);
  document.querySelectorAll(".predict input")[wrong].click();
  document.querySelector(".predict .main").click();
  const isSeen = document.querySelector("#look .verdict.no") && document.querySelector("#look .reply");
  if (!isSeen) fault(`${title}: a wrong guess isn't shown`);
}

// Writes an answer into the field of a question, and presses its button. Returns the page's message.
function askedFor(k, answer) {
  const form = byId(`ask-${k}`).form;
  byId(`ask-${k}`).value = answer;
  form.querySelector("button").click();
  const said = byId(`ask-${k}`).closest(".ask").querySelector(".verdict");
  return said ? said.textContent : "";
}

// Each question of an exercise is asked once, a wrong guess is rejected, and the right one is accepted and written to
// the hand-in. With all of them the exercise passes.
function tryAsks({ title, text }) {
  const wanted = readNotes(text).asks, say = what => fault(`exercise ${title}: ${what}`);
  const fields = byId("rows").querySelectorAll(".ask input");
  const isAsked = wanted.length > 0 && fields.length === wanted.length;
  if (!isAsked) say(`${fields.length} of ${wanted.length} questions are asked`);
  if ([...fields].some(it => it.value)) say("a question has its answer in it");
  if (/it passes/.test(byId("score").textContent)) say("it passes without answers to its questions");
  wanted.forEach(({ text: asked, answer }, k) => {
    if (!askedFor(k, `${answer}0`).startsWith("✗") || !/ 1 wrong/.test(byId("score").textContent)) {
      say(`another answer is taken to: ${asked}`);
    }
    if (!byId("said").textContent.startsWith("✗")) say("a screen reader doesn't hear of a wrong answer");
    if (!askedFor(k, ` ${answer} `).startsWith("✓")) say(`the answer isn't taken to: ${asked}`);
    if (!byId("script").value.includes(`#? ${asked} => ${answer}\n`)) say("an answer isn't in the text");
  });
  if (!/it passes/.test(byId("score").textContent)) say(`it doesn't pass: ${byId("score").textContent}`);
}

// An exercise shows no reply before it's predicted. Right predictions are accepted, and a wrong one is rejected.
function tryExercises() {
  for (const { mode, name, title, text } of LISTS.exercises) {
    keep(`text.${name}`, null);
    open(mode, { name });
    if (/=>/.test(byId("script").value)) fault(`exercise ${title} has replies in it`);
    const wanted = readNotes(text).lines.map(line => partsOf(line).wanted);
    wanted.forEach((reply, i) => reply !== null && expectHere(i, reply));
    tryAsks({ title, text });
    const count = wanted.filter(reply => reply !== null).length;
    if (!byId("score").textContent.startsWith(`${count} of ${count} `)) {
      fault(`exercise ${title} isn't found right: ${byId("score").textContent}`);
    }
    open("run", { name: "01_a_datagram" });
    open(mode, { name });
    if (!byId("score").textContent.startsWith(`${count} of`)) fault(`exercise ${title} isn't kept`);
    anew();
    expectHere(1, "error 99");
    const isMarked = byId("rows").children[1].textContent.includes("✗ expected error 99");
    if (!isMarked) fault(`exercise ${title}: beside a line that's predicted its reply isn't seen`);
    if (!/^0 of 1 /.test(byId("score").textContent)) fault(`exercise ${title}: a wrong reply is taken`);
    anew();
  }
}

// The forms are those of the help, and are linked from the card and from a wrong line. For a wrong line the page
// suggests a command, and a button corrects it.
function tryForms() {
  const forms = [...byId("forms-of").querySelectorAll("li")].map(it => it.textContent);
  if (!forms.includes("bind FD ADDR PORT") || !forms.includes("carry [all] [N]") || forms.length < 35) {
    fault(`the forms of lines are ${forms.join("; ")}`);
  }
  open("run", { text: "sokcet\nbind 3 localhost 7\n" });
  const advice = "expected ADDR (such as 10.0.0.2), got localhost: bind FD ADDR PORT";
  const row = byId("rows").children[1].textContent;
  select(1);
  const isSaid = [row, byId("look").textContent].every((it) => it.replaceAll("`", "").includes(advice));
  if (!isSaid) fault(`of a wrong line it's said: ${row}`);
  select(0);
  byId("look").querySelector(".mend .main").click();
  if (page.steps[0].says !== "ok 3" || page.at !== 0) fault("a command that was meant isn't written");
  select(1);
  byId("look").querySelector(".mend button").click();
  const isOpen = byId("forms").open && document.activeElement === byId("forms").querySelector("summary");
  if (!isOpen || !isSeen(byId("forms-of"))) fault("the forms of lines aren't opened by a wrong line");
  showLeft("read");
}

// A capture that's dropped on the page is played. Another file is refused.
async function tryCapture(hex) {
  const file = (bytes, name) => new File([bytes], name);
  open("chain", { text: "" });
  const data = new DataTransfer();
  data.items.add(file(bytesOf(hex), "a.pcap"));
  dispatchEvent(new DragEvent("dragover", { dataTransfer: data, cancelable: true }));
  if (byId("drop").hidden) fault("where to drop a capture isn't shown");
  dispatchEvent(new DragEvent("drop", { dataTransfer: data, cancelable: true }));
  await new Promise(done => setTimeout(done, 200));
  if (page.mode !== "run" || !byId("drop").hidden) fault("a capture that's dropped isn't opened");
  const before = byId("script").value;
  await openFile(file(new Uint8Array(99), "b.pcap"));
  if (byId("script").value !== before || byId("trouble").textContent !== "b.pcap: bad magic number at byte 0") {
    fault(`what is no capture isn't refused: ${byId("trouble").textContent}`);
  }
  await openFile(file(bytesOf(hex + hex.slice(48, 90)), "c.pcap"));
  const isCut = /^c.pcap: record cut short at byte \d+\. /.test(byId("trouble").textContent);
  if (!isCut || byId("script").value.split("\nrx ").length !== 2) {
    fault(`of a capture that is cut it's said: ${byId("trouble").textContent}`);
  }
  const packed = new Blob([bytesOf(hex)]).stream().pipeThrough(new CompressionStream("gzip"));
  await openFile(file(await new Response(packed).arrayBuffer(), "d.pcap.gz"));
  if (!byId("script").value.startsWith("# d.pcap.gz: 1 record, 1 IPv4 packet, 1 for 10.0.0.1.\n")) {
    fault("a gzip isn't unpacked");
  }
  await openFile(file(bytesOf("1f8b0800"), "e.gz"));
  if (!/^e.gz: compressed by gzip/.test(byId("trouble").textContent)) fault("a bad gzip isn't named");
}

// The buttons of a wire insert a line after the selected one, and keep the focus.
function tryWire() {
  open("wire", { name: "13_a_request_and_its_answer", place: 6 });
  byId("put-loss").click();
  if (page.steps[7].line !== "loss 100%" || page.at !== 7) fault("the wire doesn't lose all by its button");
  if (!document.activeElement.closest(".puts")) fault("the keyboard isn't at the buttons of the wire");
  byId("put-carry").click();
  const isLost = page.steps[8].moved.some(it => it.fate === "lost") && !page.steps[8].moved.some(it => it.to);
  if (!isLost) fault("a packet that was lost isn't shown");
  byId("put-loss").click();
  if (page.steps[9].line !== "loss 0%" || page.at !== 9) fault("the wire isn't mended by its button");
  const before = byId("script").value;
  link();
  open("run", { text: "" });
  openLink();
  if (byId("script").value !== before || page.mode !== "wire") fault("a link doesn't bring machines back");
  open("run", { text: before });
  if (page.mode !== "wire") fault("a script with hosts isn't opened as one of many machines");
}

// The script is saved under its name, and opening it again gives the same script. No file is written.
async function trySaving() {
  const { createObjectURL } = URL, { click } = HTMLAnchorElement.prototype, saved = {};
  URL.createObjectURL = it => createObjectURL.call(URL, (saved.file = it));
  HTMLAnchorElement.prototype.click = function () { saved.name = this.download; };
  open("chain", { name: "03_sharing_without_copying" });
  const before = byId("script").value;
  save();
  Object.assign(URL, { createObjectURL });
  HTMLAnchorElement.prototype.click = click;
  open("chain", { text: "" });
  await load({ target: { files: [new File([saved.file], saved.name, { type: "text/plain" })], value: saved.name } });
  const isSame = byId("script").value === before && page.mode === "chain" && page.steps.length === 18;
  const isNamed = saved.name === "03_sharing_without_copying.txt";
  if (!isSame || !isNamed) fault("a script that was saved isn't opened again");
}

// ---- by keyboard only

// The elements that take input, and those that the Tab key has reached.
const takers = () => [...(document.querySelector("dialog[open]") || document.body)
  .querySelectorAll("button, input, select, textarea, [tabindex]")]
  .filter(it => isSeen(it) || (it.matches("#load") && !document.querySelector("dialog[open]")));
let reached = new Set();

function startTabs() {
  reached = new Set();
  document.activeElement.blur();
  return takers().filter(it => it.tabIndex >= 0).length;
}

// The rows of the script are one stop. Moves the focus there and returns the arrow keys that reach the others and come
// back, each with the number of presses.
function arrowsThroughRows() {
  const row = document.querySelector("dialog[open]") ? null : byId("rows").querySelector("[aria-current]");
  if (!row || !isSeen(row)) return [];
  row.focus();
  const after = page.steps.length - 1 - page.at;
  return [["ArrowDown", after], ["ArrowUp", page.steps.length - 1], ["ArrowDown", page.at]];
}

// The element with the focus has an outline.
function noteFocus() {
  const it = document.activeElement, marked = it.matches("#load") ? it.parentElement : it;
  reached.add(it);
  return it === document.body || getComputedStyle(marked).outlineStyle !== "none" ? [] : [`${nameOf(it)} isn't marked`];
}

const unreached = () => takers().filter(it => !reached.has(it)).map(it => `${nameOf(it)} isn't reached by Tab`);
