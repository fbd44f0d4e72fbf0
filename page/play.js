"use strict";
// Scripts in bsdplay's language (docs/scripts.md). The program plays them, and returns the reply to each line. To show
// more about a line, the page converts it to lines of `bsdudp run`, and plays these on separate machines.

const DEFAULT_CONFIG = configOf(DEFAULTS);

// ---- what a script has besides its lines

// A comment before a line, or otherwise after it, is a note on it. "#?" begins a question about the next line, which is
// asked before its reply is shown; "#-" is a wrong choice, and "#+" the right one. `asks` are the questions without
// choices, in exercises: their answers follow "=>".
function readNotes(text) {
  const all = linesOf(text), lines = [], places = [], notes = [], questions = [], asked = [];
  let note = [], question = null;
  all.forEach((line, place) => {
    const bare = line.trim(), said = bare.slice(2).trim();
    if (bare.startsWith("#?")) asked.push(question = { text: said, answers: [], place, line });
    else if (question && /^#[-+]/.test(bare)) question.answers.push({ text: said, isRight: bare[1] === "+" });
    else if (bare.startsWith("#")) note.push(bare.replace(/^#+/, "").trim());
    else if (bare) {
      lines.push(bare);
      places.push(place);
      notes.push(note.join(" ") || commentOf(line));
      questions.push(question && question.answers.length ? question : null);
      [note, question] = [[], null];
    }
  });
  const asks = asked.filter(it => !it.answers.length && it.line.startsWith("#?")).map(askIn);
  return { all, lines, places, notes, questions, asks };
}

// A question of an exercise: its place, its text, and its answer, which the program reads as a line.
function askIn({ place, line }) {
  const { asked, wanted } = partsOf(line.slice(2));
  return { place, line, text: asked, answer: wanted };
}

// The text outside quotes, up to one of these characters.
const UP_TO = last => new RegExp(String.raw`^((?:"(?:[^"\\]|\\.)*"|[^"${last}])*)`);
const commentOf = line => line.slice(UP_TO("#").exec(line)[1].length + 1).trim();

// A line without its expectation and its comment, and the expectation as it's written.
function partsOf(line) {
  const bare = UP_TO("#").exec(line)[1], asked = UP_TO("=").exec(bare)[1], wanted = bare.slice(asked.length);
  return wanted.startsWith("=>") ? { asked: asked.trim(), wanted: wanted.slice(2).trim() }
    : { asked: bare.trim(), wanted: null };
}

// Whether a script is for several hosts: its first line that isn't a comment begins with `host`.
const hasHosts = text => /^host(\s|$)/.test(readNotes(text).lines[0] || "");

// ---- bytes, from the program

// The packet that each line of a script moves, by the number of the line: the records of its capture.
function packetsIn(engine, config, script) {
  const { bytes } = engine.capture(config, script), view = new DataView(bytes.buffer, bytes.byteOffset, bytes.length);
  const packets = new Map();
  for (let at = 24; at + 16 <= bytes.length;) {
    const [microseconds, size] = [4, 8].map(off => view.getUint32(at + off, true));
    packets.set(microseconds % 500000, bytes.slice(at + 16, at + 16 + size));
    at += 16 + size;
  }
  return packets;
}

// The digits of bytes to send: texts in an expectation are compared as digits.
function digitsOf(engine, texts) {
  const script = texts.map(text => `stat => ${text}\n`).join("");
  return engine.play(DEFAULT_CONFIG, script).objects.map(it => it.expected);
}

// A line without the time before it, and how many ticks that is.
function timedOf(line) {
  const [, seconds, plain] = /^\+(\d+(?:\.5)?)s (.*)$/.exec(line) || [];
  return plain === undefined ? { ticks: 0, plain: line } : { ticks: 2 * seconds, plain };
}

const whenOf = ticks => (ticks ? `, after ${ticks / 2} s` : "");

const SEND = /^(sendto \S+ \S+ \S+|send \S+) (.+)$/;

// The lines of `bsdudp run` for each line of a host: none for a line that only shows something or isn't played.
function runLines(engine, config, script, objects) {
  const packets = packetsIn(engine, config, script), all = objects.map(it => timedOf(it.fault ? "" : it.line));
  const sends = all.map(it => SEND.exec(it.plain)).filter(Boolean);
  const digits = digitsOf(engine, sends.map(it => it[2]));
  const own = (it, line) => {
    if (it.fault || /^(show |--|rx pcap |frame |error )/.test(line)) return [];
    const [, ticks] = /^tick (\d+)$/.exec(line) || [], send = SEND.exec(line);
    if (ticks) return Array(+ticks).fill("tick");
    if (send) return [`${send[1]} ${digits.shift()}`];
    return [line.startsWith("rx ") ? `rx ${hexOf(packets.get(it.number)) || "-"}` : line];
  };
  return objects.map((it, i) => [...Array(all[i].ticks).fill("tick"), ...own(it, all[i].plain)]);
}

// ---- the steps of a script for one host

// The configuration after the settings at the beginning of a script.
function configAfter(objects) {
  const options = { ...DEFAULTS };
  for (const it of objects) {
    if (it.reply === "ok" && it.line.startsWith("--")) Object.assign(options, settingsIn(it.line.split(" ")));
  }
  return { options, config: configOf(options) };
}

// `own` are the steps of `bsdudp run`, and `ends` says after how many of those each line ends.
function tracePlay(engine, text) {
  const { code, objects } = engine.play(DEFAULT_CONFIG, text), { options, config } = configAfter(objects);
  const runs = runLines(engine, DEFAULT_CONFIG, text, objects);
  const { steps: own } = traceStack(engine, config, runs.flat());
  const all = linesOf(text), steps = [], ends = [];
  let done = 0;
  objects.forEach((it, i) => {
    const ran = own.slice(done, (done += runs[i].length)), last = own[done - 1];
    steps.push({ ...stepOf(it, all[it.number - 1], ran, last, config), number: i + 1 });
    ends.push(done);
  });
  return { code, steps, own, ends, options, config };
}

// The data shown for a line: the program's reply, and the effects of its lines of `bsdudp run`.
function stepOf(it, text, ran, last, config) {
  const said = { line: it.line || partsOf(text).asked, ...answerOf(it), ...wantedOf(it, text) };
  const { ticks, plain } = timedOf(said.line);
  if (ran.length === 1 && !ticks) return { ...last, ...said, causes: causesOf(said.says, last.drops) };
  const pool = last ? last.pool : emptyPool(config), counters = last ? last.counters : {};
  const step = { drops: [], changed: [], before: pool, pool, counters, ...said };
  if (!ran.length) return { ...step, ...otherOf(said) };
  const by = name => sumOf(ran.flatMap(one => one.changed).filter(one => one.name === name), "by");
  const changed = counterNames(ran).map(name => ({ name, by: by(name) })).filter(one => one.by !== 0);
  const all = { before: ran[0].before, changed, drops: changed.filter(({ name }) => DROPS.has(name)) };
  if (!ticks) return { ...last, ...said, ...all, tells: `${ran.length / 2} s pass` };
  const own = ran.length > ticks ? { ...last, causes: causesOf(said.says, last.drops) }
    : { ...step, ...otherOf({ ...said, line: plain }) };
  return { ...own, ...said, ...all, tells: own.tells + whenOf(ticks) };
}

// The program's causes of drops, each with its counter.
function causesOf(says, drops) {
  const told = says.split(/(?:^| )dropped /).slice(1), names = drops.filter(({ name }) => ENDS.has(name));
  return new Map(told.length === names.length ? names.map(({ name }, i) => [name, told[i]]) : []);
}

const counterNames = steps => [...new Set(steps.flatMap(it => it.changed).map(it => it.name))];

// The program's output for a line: its reply with the lines below it, or its error.
const answerOf = it => (it.fault ? { says: it.fault, reply: it.fault, below: [], column: it.column, isOk: false }
  : { says: it.reply, below: linesOf(it.below).map(lineBelow), isOk: !it.reply.startsWith("error ") });
// The fate of a packet is indented below the packet, as in bsdplay's output.
const lineBelow = line => line.replace(/^ {4}/, "");
// In a hand-in, an open line expects `?`. `wanted` has the digits of bytes that are written as a text.
function wantedOf(it, text) {
  const { wanted } = partsOf(text);
  return { expected: wanted === "?" ? null : wanted, wanted: it.expected, isMet: it.met };
}

// A line without lines of `bsdudp run`.
function otherOf({ line, isOk, column, reply }) {
  const [verb, ...words] = line.split(" ");
  if (column !== undefined) return { kind: "bad", verb: line, tells: "", why: reply };
  if (verb === "show") return { kind: "ask", verb, tells: words.join(" ") };
  if (verb.startsWith("--")) return { kind: "call", verb: "settings", tells: line };
  return { kind: "in", verb, tells: words.join(" "), isOk };
}

// ---- scripts of chains

// Scripts of `bsdudp chain` have comments and expectations here, too.
function playChains(engine, config, lines) {
  const parts = lines.map(partsOf), traced = traceChains(engine, config, parts.map(it => it.asked));
  const isMet = (wanted, reply) => wanted === null || wanted === reply
    || (wanted.endsWith("..") && reply.startsWith(wanted.slice(0, -2).trim()));
  traced.steps.forEach((step, i) =>
    Object.assign(step, { expected: parts[i].wanted, isMet: isMet(parts[i].wanted, step.reply), below: [] }));
  return traced;
}
