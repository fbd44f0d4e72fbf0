// node page/test/replies.js MODULE.wasm EXAMPLES LESSONS [PROGRAM [PLAYER]]: plays each example and each lesson with
// the module. The replies to an example, and to a dialog about chains, must be the expected ones, byte for byte. A play
// script must meet all its expectations, and bsdplay, if it's named as PLAYER, must print the same. If the native
// program is named, both play random scripts, and their replies must be equal. Drawings of chains are compared with
// those worked out by hand, and with the module's replies. The state that the page shows for a host on a wire must
// agree with the program after each line. It prints nothing if all tests pass.
"use strict";
const child = require("child_process"), fs = require("fs"), os = require("os"), path = require("path");
const { load } = require("./sources.js");

const [file, examples, lessons, program, player] = process.argv.slice(2);
const page = load(["Engine", "configOf", "optionsOf", "readNotes", "partsOf", "linesOf", "hexOf", "bytesOf", "hasHosts",
  "DEFAULTS", "DEFAULT_CONFIG", "usageIn", "slotsIn", "drawnChains", "clustersIn", "playChains", "traceHosts",
  "isFollowed", "Frame", "tracePlay", "traceStack", "Held", "chainsIn", "dotted"], file);

let faults = 0;
function fault(script, text) {
  console.error(`${script}: ${text}`);
  faults += 1;
}

const textOf = lines => lines.map(line => line + "\n").join("");

const scriptsOf = folder => fs.readdirSync(folder).filter(name => name.endsWith(".txt"))
  .map(name => path.join(folder, name));

function configOf(script) {
  const words = fs.existsSync(script + ".args") ? fs.readFileSync(script + ".args", "utf8").trim().split(/\s+/) : [];
  return page.configOf(page.optionsOf(words));
}

const examplesOf = folder => scriptsOf(folder).map(name => ({ name, config: configOf(name),
  text: fs.readFileSync(name, "utf8"), replies: fs.readFileSync(name + ".stdout", "utf8") }));

// The dialogs of a table: lines, each with its reply, after a line with the name and the options.
function dialogsOf(table) {
  return fs.readFileSync(table, "utf8").trimEnd().split("\n\n").map(part => {
    const [head, ...lines] = part.split("\n"), [name, ...words] = head.split(" ");
    const [text, replies] = [0, 1].map(at => textOf(lines.map(line => line.split(" => ")[at])));
    return { name, config: page.configOf(page.optionsOf(words)), text, replies };
  });
}

function tryExample(engine, command, { name, config, text, replies }) {
  const said = textOf(engine[command](config, text).replies);
  if (said !== replies) fault(name, "the page's module has other replies than expected");
}

// The steps of a script, played as in its tab.
function stepsOf(engine, command, script, text) {
  if (command === "chain") return page.playChains(engine, configOf(script), page.readNotes(text).lines);
  return page.hasHosts(text) ? page.traceHosts(engine, text) : page.tracePlay(engine, text);
}

// Plays a play script: all expectations are met, and each line does something.
function tryScript(engine, command, script) {
  const text = fs.readFileSync(script, "utf8"), notes = page.readNotes(text);
  const played = stepsOf(engine, command, script, text), { code, steps } = played;
  if (code !== 0 || steps.length !== notes.lines.length) fault(script, `it ended with outcome ${code}`);
  steps.forEach((step, i) => {
    const place = `${script}:${notes.places[i] + 1}`, said = step.says || step.reply;
    if (step.expected !== null && !step.isMet) fault(place, `not ${step.expected}, but ${said} comes`);
    if (step.kind === "bad") fault(place, `it does nothing: ${said}`);
  });
  if (command !== "chain") tryPlayer(engine, script, text);
  if (played.hosts) {
    tryHosts(script, played);
    tryShown(script, played);
  } else if (played.own) tryOwn(script, played);
  return { steps, notes };
}

function tryLesson(engine, command, script) {
  const { steps, notes } = tryScript(engine, command, script);
  if (!steps.some(step => step.expected !== null)) fault(script, "it says of no line what the program replies");
  notes.notes.forEach((note, i) => {
    if (!note) fault(`${script}:${notes.places[i] + 1}`, "the line has no note");
  });
  const questions = notes.questions.filter(Boolean);
  if (!questions.length) fault(script, "it asks nothing");
  for (const { text, answers } of questions) {
    const right = answers.filter(it => it.isRight).length;
    if (answers.length < 2 || right !== 1) fault(script, `not one right answer: ${text}`);
  }
}

// bsdplay prints the same objects for a script.
function tryPlayer(engine, script, text) {
  if (!player) return;
  const { stdout } = child.spawnSync(player, ["--json"], { input: text, maxBuffer: 1 << 28 });
  const call = page.hasHosts(text) ? engine.hosts(text) : engine.play(page.DEFAULT_CONFIG, text);
  const own = all => JSON.stringify(all.map(it => ({ ...it, file: null })));
  const printed = stdout.toString().split("\n").filter(Boolean).map(line => JSON.parse(line));
  if (own(latin(call.objects)) !== own(printed)) fault(script, "bsdplay prints other objects of it");
}

// Objects whose texts have one byte in each character, as bsdplay prints them.
const latin = all => all.map(it => Object.fromEntries(Object.entries(it).map(([name, value]) =>
  [name, typeof value === "string" ? Buffer.from(value).toString("latin1") : value])));

// The reply to a line is that to its line of `bsdudp run`, except for the cause of a drop.
function tryOwn(script, { steps, own, ends }) {
  steps.forEach((step, i) => {
    const ran = own.slice(i ? ends[i - 1] : 0, ends[i]);
    if (ran.length !== 1 || step.line.startsWith("+")) return; // after a time, one line alone is its tick
    const [{ reply }] = ran, drops = step.says.indexOf("dropped ");
    const said = drops < 0 ? step.says : step.says.slice(0, drops).trim() || "ok";
    if (said !== reply) fault(`${script}, line ${i + 1}`, `it's answered ${step.says}, and alone ${reply}`);
  });
}

// ---- exercises

// Scripts that name a file, and those that have wrong lines.
const OTHERS = ["played_in.txt", "borders.txt", "bytes.txt", "other_line_ends.txt"];

// The marks of a key compared with itself, and of the exercise that is handed out: counted by hand in their texts.
// Those of hand-ins with changed, missing and added lines are those of `bsdplay --grade`.
function tryMarks(engine, script) {
  const key = fs.readFileSync(script, "utf8"), all = page.linesOf(key);
  const isAnswered = line => /^[^#].*=>|^#\?.*=>/.test(line);
  const total = all.filter(isAnswered).length, first = all.findIndex(isAnswered) + 1;
  const blank = fs.readFileSync(path.join(examples, "exercises", path.basename(script)), "utf8");
  const said = hand => Object.values(engine.marks(key, hand)).join();
  if (said(key) !== `${total},0,0,0`) fault(script, `beside itself its marks are ${said(key)}`);
  if (said(blank) !== `0,0,${total},${first}`) fault(script, `its exercise has the marks ${said(blank)}`);
  if (said("") !== `0,0,${total},${first}`) fault(script, `an empty hand-in has the marks ${said("")}`);
  const changes = [line => `${line} more`, () => "", line => `${line}\n${line}`, line => line.replace(/=>.*/, "=> _")];
  const below = numbers(total);
  const changed = () => all.map(line => (isAnswered(line) && below(4) === 0 ? changes[below(4)](line) : line))
    .join("\n");
  for (let i = 0; player && i < 4; i++) tryGraded(script, changed(), said);
}

// One hand-in, graded by the native program.
function tryGraded(script, hand, said) {
  const home = fs.mkdtempSync(path.join(os.tmpdir(), "bsdudp-"));
  try {
    fs.writeFileSync(path.join(home, "hand.txt"), hand);
    const words = ["--grade", "--csv", "--key", script, path.join(home, "hand.txt")];
    const { stdout } = child.spawnSync(player, words, { maxBuffer: 1 << 28 });
    const [, , right, wrong, missing, first] = stdout.toString().split("\n")[1].split(",");
    const marks = [right, wrong, missing, first || 0].join();
    if (said(hand) !== marks) fault(script, `the marks of a hand-in are ${said(hand)}, and by bsdplay ${marks}`);
  } finally {
    fs.rmSync(home, { recursive: true });
  }
}

// ---- frames

// Frames, with their fields in the layout of RFC 826 and RFC 894: the offset, the name, and the value; a cross marks
// one that no Ethernet has.
const ETHER = ["0 Ethernet destination: all", "6 Ethernet source: 02:00:00:00:00:01", "12 type: 0x0806 ARP"];
const ARP = ["14 hardware type: 1 Ethernet", "16 protocol type: 0x0800", "18 hardware length: 6",
  "19 protocol length: 4"];
const ENDS = ["22 sender hardware address: 02:00:00:00:00:01", "28 sender address: 10.0.0.1",
  "32 target hardware address: 00:00:00:00:00:00", "38 target address: 10.0.0.2"];
const ENDS_HEX = "0200000000010a0000010000000000000a000002";
const PACKET = ["14 version: 4", "14 IHL: 5", "15 type of service: 0", "16 total length: 30", "18 identification: 1",
  "20 flags: –", "20 fragment offset: 0", "22 time to live: 64", "23 protocol: 17 UDP", "24 header checksum: 0x66cc",
  "26 source address: 10.0.0.1", "30 destination address: 10.0.0.2", "34 source port: 1024", "36 destination port: 7",
  "38 UDP length: 10", "40 UDP checksum: 0x7f67", "42 data, 2 bytes: hi"];
const PACKET_HEX = "4500001e00010000401166cc0a0000010a00000204000007000a7f676869";
const FRAMES = [
  [`ffffffffffff020000000001080600010800060400 01${ENDS_HEX}`, [...ETHER, ...ARP, "20 operation: 1 request", ...ENDS],
    "02:00:00:00:00:01 → all: ARP, who has 10.0.0.2? Tell 10.0.0.1"],
  [`ffffffffffff020000000001080600010800060400 02${ENDS_HEX}0000`,
    [...ETHER, ...ARP, "20 operation: 2 reply", ...ENDS, "42 padding: "],
    "02:00:00:00:00:01 → all: ARP, 10.0.0.1 is at 02:00:00:00:00:01"],
  [`ffffffffffff020000000001080600060001050300 09${ENDS_HEX}`,
    [...ETHER, "14 hardware type: 6 ✗", "16 protocol type: 0x0001 ✗", "18 hardware length: 5 ✗",
      "19 protocol length: 3 ✗", "20 operation: 9 ✗", ...ENDS],
    "02:00:00:00:00:01 → all: ARP, operation 9"],
  ["0200000000020200000000018899 aa", ["0 Ethernet destination: 02:00:00:00:00:02", ETHER[1], "12 type: 0x8899",
    "14 data: 1 byte"], "02:00:00:00:00:01 → 02:00:00:00:00:02: type 0x8899, 1 byte"],
  [`0200000000020200000000010800 ${PACKET_HEX}`, ["0 Ethernet destination: 02:00:00:00:00:02", ETHER[1],
    "12 type: 0x0800 IPv4", ...PACKET],
    "02:00:00:00:00:01 → 02:00:00:00:00:02: 10.0.0.1:1024 → 10.0.0.2:7, 2 bytes"],
  ["0200000000020200000000010800 45", ["0 Ethernet destination: 02:00:00:00:00:02", ETHER[1], "12 type: 0x0800 IPv4",
    "14 no whole header: "], "02:00:00:00:00:01 → 02:00:00:00:00:02: 1 byte, no whole IP header"],
  ["ffffffffffff0200000000", ["0 no whole Ethernet header: "], "11 bytes, no whole Ethernet header"],
];

function tryFrames() {
  for (const [digits, wanted, said] of FRAMES) {
    const hex = digits.replace(/ /g, ""), frame = new page.Frame(page.bytesOf(hex));
    const got = frame.fields.map(it => `${it.at} ${it.name}: ${it.value}${it.isWrong ? " ✗" : ""}`);
    const [is, right] = [got, wanted].map(all => all.join("; "));
    if (is !== right) fault(`the frame ${hex}`, `${right} is right, and ${is} drawn`);
    if (frame.tells !== said) fault(`the frame ${hex}`, `${said} is right, and ${frame.tells} said`);
    for (let n = 0; n <= hex.length / 2; n++) tryWhole(page.bytesOf(hex.slice(0, 2 * n)));
  }
}

// Each byte of a frame belongs to a field, and each field has its bytes.
function tryWhole(bytes) {
  const { fields } = new page.Frame(bytes);
  const isOfNone = at => !fields.some(it => at >= it.at && at < it.at + it.size);
  if (Array.from(bytes.keys()).some(isOfNone)) fault(`the frame ${page.hexOf(bytes)}`, "a byte is of no field");
  if (fields.some(it => it.at + it.size > bytes.length)) fault(`the frame ${page.hexOf(bytes)}`, "a field isn't there");
}

// In each exercise with all expectations filled in, all are met, and each other reply is detected.
function tryExercise(engine, script) {
  const { steps } = tryScript(engine, "run", script), all = page.linesOf(fs.readFileSync(script, "utf8"));
  const isOpen = step => step.expected === null && !step.line.startsWith("--");
  if (steps.some(isOpen)) fault(script, "of a line nothing is expected");
  const other = all.map(line => (page.partsOf(line).wanted === null || line.startsWith("#") ? line
    : `${page.partsOf(line).asked} => ${page.partsOf(line).wanted} more`));
  if (page.tracePlay(engine, other.join("\n")).steps.some(step => step.isMet)) {
    fault(script, "a word too many is taken for right");
  }
}

// ---- the places of the bytes

// The mbufs after a script, printed from memory by a special build of the native program: packet header, offset,
// length, and the reference count of the cluster. A "/" separates the chains of a queue. The queues are those of the
// sockets, the output queue, and those of unfinished datagrams.
const SENT = n => Array.from({ length: n }, (_, i) => (i & 255).toString(16).padStart(2, "0")).join("");
const RX = (bytes, more = "", to = "10.0.0.1:7") => `rx udp 10.0.0.2:5000 > ${to} ${bytes} ${more}`.trim();
const TWO = ["socket", "setsockopt 3 reuseport 1", "bind 3 0.0.0.0 7", "socket", "setsockopt 4 reuseport 1",
  "bind 4 0.0.0.0 7"];
// A short send from a bound socket takes another path through the code than a broadcast, and so does a short packet; the
// bytes must be at the same places. These rows are worked out by hand: MH_ALIGN puts the bytes of a send at the end of a
// first mbuf, at a multiple of 4, and M_PREPEND the headers in front of them or at the end of an mbuf of their own. An
// arriving packet begins at the front of an mbuf or cluster, and its headers are cut off there (volume 2, chapter 2).
const BOUND = ["socket", "bind 3 0.0.0.0 9"], BROADCAST = [...BOUND, "setsockopt 3 broadcast 1"];
const SENDS = [[2, "; H96+30"], [71, "; H28+99"], [208, "; H100+28 56+208x1"]];
const CHAINS = [
  ...SENDS.map(([n, chain]) => [[...BOUND, `sendto 3 10.0.0.2 7 ${SENT(n)}`], chain]),
  ...SENDS.map(([n, chain]) => [[...BROADCAST, `sendto 3 10.0.0.255 7 ${SENT(n)}`], chain]),
  [["socket", "bind 3 0.0.0.0 7", RX('"hi"', "", "10.0.0.255:7")], "H28+16 56+2"],
  [["socket", "bind 3 0.0.0.0 7", RX("@1472", "", "10.0.0.255:7")], "H28+16 28+1472x1"],
  [["socket", "bind 3 0.0.0.0 7", RX('"hi"')], "H28+16 56+2"],
  [["socket", "bind 3 0.0.0.0 7", RX('"hi"'), RX("@1472", "id 2")], "H28+16 56+2 / H28+16 28+1472x1"],
  [["socket", "bind 3 0.0.0.0 7", RX('"hi"'), RX("@1472", "id 2"), "recvfrom 3 9000"], "H28+16 28+1472x1"],
  [[...TWO, RX("@1472", "id 3", "10.0.0.255:7")], "H28+16 28+1472x2 ; H28+16 28+1472x2"],
  [["socket", `sendto 3 10.0.0.2 7 ${SENT(1900)}`], "; H100+28 56+1472x2 / H28+20 1528+428x2"],
  [["socket", `sendto 3 10.0.0.2 7 ${SENT(1900)}`, "tx"], "; H28+20 1528+428x1"],
  [["socket", `sendto 3 10.0.0.2 7 ${SENT(72)}`], "; H28+100"],
  [["socket", "bind 3 0.0.0.0 7", `sendto 3 10.0.0.1 7 ${SENT(3000)}`],
    "H28+16 128+0 56+1504x2 0+0x2 48+0 1560+488x2 0+1008x2"],
  [[RX("@560", "id 77 at 0 more size 240")], "; ; H28+0 ; H48+20 40+220x1"],
  [[RX("@560", "id 77 at 0 more size 240"), RX("@560", "id 77 at 480 last")],
    "; ; H28+0 ; H48+20 40+220x1 / H48+80 20+8"],
];

// A state in the form of CHAINS.
function wordsOf(state) {
  const at = new Map(state.mbufs.map(it => [it.n, it]));
  const wordOf = it => `${it.pkthdr === null ? "" : "H"}${it.data}+${it.len}`
    + (it.cluster === null ? "" : `x${state.clusters[it.cluster]}`);
  const walk = (n, link) => (n === null ? [] : [at.get(n), ...walk(at.get(n)[link], link)]);
  const trainOf = n => walk(n, "nextpkt").map(it => walk(it.n, "next").map(wordOf).join(" ")).join(" / ");
  const late = state.unfinished.flatMap(it => [trainOf(it.mbuf), trainOf(it.first)]);
  return [...state.sockets.map(it => trainOf(it.first)), trainOf(state.output.first), ...late].join(" ; ").trim();
}

function tryChains(engine) {
  const config = page.DEFAULT_CONFIG, bare = text => text.replace(/^[; ]+|[; ]+$/g, "");
  for (const [lines, wanted] of CHAINS) {
    const { own } = page.tracePlay(engine, lines.join("\n"));
    const got = wordsOf(engine.state(config, textOf(own.map(it => it.line)))), last = lines[lines.length - 1];
    if (bare(got) !== bare(wanted)) {
      fault(`the mbufs after ${last.slice(0, 60)}`, `${wanted} is right, and the state has ${got}`);
    }
  }
}

// The states are tested after each this number of lines, and queued data is read after each that number.
const MOST_STATES = 600, READ_EACH = 20;

// After each line of a script the state has the mbufs, the clusters and the references that the program counts. Queued
// packets and unfinished datagrams have the bytes that the program's other replies have.
function tryStates(engine, name, config, lines) {
  const { steps } = page.traceStack(engine, config, lines.slice(0, MOST_STATES));
  for (let n = 1; n <= steps.length; n++) {
    const some = lines.slice(0, n), isRead = n === steps.length || n % READ_EACH === 0;
    const held = isRead ? new page.Held(engine, config, some) : null;
    const state = isRead ? held.state : engine.state(config, textOf(some));
    tryState(`${name}, after line ${n}`, state, steps[n - 1].pool, held);
  }
}

function tryState(name, state, pool, held) {
  const { mbufs } = state, clusters = new Map(), chainsOf = page.chainsIn(state);
  for (const it of mbufs) if (it.cluster !== null) clusters.set(it.cluster, (clusters.get(it.cluster) || 0) + 1);
  const countsOf = all => JSON.stringify(all.map(([n, count]) => [String(n), count]).sort());
  const counts = [...clusters.values()], refs = counts.reduce((n, it) => n + it, 0), say = what => fault(name, what);
  if (countsOf(Object.entries(state.clusters)) !== countsOf([...clusters])) say("clusters are counted otherwise");
  if (mbufs.length !== pool.used) say("the state has other mbufs than are in use");
  if (clusters.size !== pool.usedClusters || refs !== pool.refs || Math.max(0, ...counts) !== pool.most) {
    say("the state has other clusters than are in use");
  }
  if (new Set(mbufs.map(it => it.n)).size !== mbufs.length) say("two mbufs have one number");
  if (mbufs.some(it => it.data + it.len > (it.cluster === null ? 128 : 2048))) say("bytes lie outside their mbuf");
  const trains = [...state.sockets.map(it => it.first), state.output.first,
    ...state.unfinished.flatMap(it => [it.mbuf, it.first])].map(first => chainsOf(first).filter(it => it.length));
  const reached = new Set(trains.flat(2).map(it => it.n));
  if (reached.size !== mbufs.length) say("an mbuf hangs on no queue");
  if (state.output.last !== lastOf(chainsOf(state.output.first))) say("the last packet is another");
  if (held) tryWaiting(say, held, chainsOf);
}

const lastOf = chains => (chains.length ? chains[chains.length - 1][0].n : null);

// The first bytes of each mbuf of a chain whose bytes are in `whole`.
function isBytesOf(whole, chain) {
  let at = 0;
  for (const it of chain) {
    const shown = Math.min(it.len, 32);
    if (page.hexOf(whole.subarray(at, at + shown)) !== it.bytes) return false;
    at += it.len;
  }
  return at === whole.length;
}

function tryWaiting(say, { state, sockets, output, pieces }, chainsOf) {
  for (const { fd, first, cc, mbcnt, limit } of state.sockets) {
    const { queue, options } = sockets.find(it => it.fd === fd) || { queue: [], options: [] };
    const chains = chainsOf(first), all = chains.flat(), size = options.find(it => it.startsWith("rcvbuf "));
    const isSame = queue.length === chains.length && queue.every((it, i) => it.data && isBytesOf(it.data, chains[i].slice(1)));
    if (!isSame) say(`other datagrams are in the state than wait in socket ${fd}`);
    if (limit !== (size ? +size.slice(7) : 0)) say(`the size of the queue of socket ${fd} is ${limit}`);
    if (cc !== all.reduce((n, it) => n + it.len, 0)) say(`sb_cc of socket ${fd} is ${cc}`);
    if (mbcnt !== all.reduce((n, it) => n + 128 + (it.cluster === null ? 0 : 2048), 0)) {
      say(`sb_mbcnt of socket ${fd} is ${mbcnt}`);
    }
  }
  const packets = chainsOf(state.output.first);
  const isOutput = output.length === state.output.len && packets.length === output.length
    && output.every((it, i) => isBytesOf(it.packet.bytes, packets[i]));
  if (!isOutput) say("other packets are in the state than wait for the link");
  const stored = state.unfinished.map(it => chainsOf(it.first).map(([head]) => [head.rcvif >> 1, head.pkthdr]));
  const shown = pieces.map(it => it.pieces.map(({ from, to }) => [from, to - from]));
  // (`show unfinished` prints the first 32)
  const isAll = stored.length === shown.length || (shown.length === 32 && stored.length > 32);
  if (!isAll || JSON.stringify(stored.slice(0, shown.length)) !== JSON.stringify(shown)) {
    say("other fragments are in the state than are shown");
  }
}

// ---- hosts on a wire

// Each host's separate script has the same results as the program after each line, with the module and with the native
// program, which can't set the size of a receive queue.
function tryHosts(name, { steps, hosts }) {
  for (const host of hosts.values()) {
    tryHost(name, host);
    const lost = steps.findIndex(step => step.now.has(host.name) && !page.isFollowed(step, host));
    if (lost >= 0) fault(name, `what ${host.name} has in hand isn't known after line ${lost + 1}`);
  }
  steps.flatMap(step => step.moved).forEach(it => tryMoved(name, it, hosts));
}

function tryHost(name, host) {
  if (!program || host.lines.some(line => line.includes(" rcvbuf "))) return;
  const words = Object.entries(host.options).map(([option, value]) => `--${option}=${value}`);
  const native = child.spawnSync(program, ["run", ...words], { input: textOf(host.lines), maxBuffer: 1 << 28 });
  const isSame = native.status === 0 && native.stdout.toString() === textOf(host.steps.map(step => step.reply));
  if (!isSame) fault(name, `${host.name} has other replies by ${program}`);
}

// A packet that arrived is one that another host sent, byte for byte, and it's for the host that received it.
function tryMoved(name, moved, hosts) {
  const { from, to, packet, fate, place } = moved;
  if (packet instanceof page.Frame) return tryFrame(name, moved, hosts);
  const hex = page.hexOf(packet.bytes), isGiven = hosts.get(from).steps.some(step => step.reply === `packet ${hex}`);
  if (!isGiven) fault(name, `${from} didn't give a packet that left the wire`);
  if (fate !== "delivered") return;
  const { config, lines } = hosts.get(to), isFor = [config.addr, config.bcast, 0xffffffff].includes(packet.destination);
  if (to === from || !isFor || lines[place] !== `rx ${hex}`) fault(name, `${to} got a packet that isn't for it`);
}

// The packet in a frame is one that the host sent, byte for byte, unless the link made it: ICMP, or ARP.
function tryFrame(name, { from, to, packet: { packet }, place }, hosts) {
  if (!packet) return;
  const hex = page.hexOf(packet.bytes), isGiven = hosts.get(from).steps.some(step => step.reply === `packet ${hex}`);
  if (packet.protocol === 17 && !isGiven) fault(name, `${from} didn't give the packet of a frame`);
  if (to && hosts.get(to).lines[place] !== `rx ${hex}`) fault(name, `${to} got another packet than its frame has`);
}

// The page and the program report the same frames under way.
function tryShown(name, { steps }) {
  const wordsOf = ({ source, destination, arp, packet }) => {
    const { operation, mac, ip, target } = arp || {};
    if (!arp) return packet ? packet.tells.replace(" → ", " > ").split(", ")[0] : "";
    const [from, to] = [ip, target].map(page.dotted);
    return `${source} > ${destination} ARP ${operation === 1 ? `who has ${to}, tell ${from}` : `${from} is at ${mac}`}`;
  };
  for (const { below, wire } of steps.filter(it => it.line === "show wire")) {
    wire.flight.filter(it => it.packet instanceof page.Frame).forEach((it, i) => {
      const isSame = below[i].includes(`${it.from}: `) && below[i].includes(wordsOf(it.packet));
      if (!isSame) fault(name, `of a frame the program says ${below[i]}, and the page ${it.packet.tells}`);
    });
  }
}

// Random lines of three hosts with different MTUs, on a wire that loses, repeats and delays packets.
function randomWire(below) {
  const any = list => list[below(list.length)], name = () => any(["a", "b", "c"]), port = () => any([0, 7, 520]);
  const ip = () => `10.0.0.${any([1, 2, 3, 3, 9, 255])}`, fd = () => 3 + below(3);
  const bytes = () => any(["-", "\"hi\"", "@40", "\"b\"*41", "@600", "00*3000"]);
  const calls = [() => "socket", () => `bind ${fd()} 0.0.0.0 ${port()}`, () => `recvfrom ${fd()} 65535`, () => "stat",
    () => `setsockopt ${fd()} broadcast 1`, () => `setsockopt ${fd()} rcvbuf ${any([1, 600, 3000])}`,
    () => `connect ${fd()} ${ip()} 7`, () => "mbstat", () => "show sockets",
    () => `sendto ${fd()} ${ip()} ${any([7, 520])} ${bytes()}`, () => `send ${fd()} ${bytes()}`,
    () => `rx udp 10.0.0.9:5 > ${ip()}:7 ${bytes()}`, () => "tick"];
  const wire = [() => "carry", () => "collect", () => "deliver", () => "carry 2", () => "show wire", () => "tick",
    () => `drop ${below(4)}`, () => `repeat ${below(4)}`, () => `swap ${below(4)} ${below(4)}`, () => "loss 20%",
    () => "loss 0%", () => "reorder 50%", () => "carry all 3", () => `repeat 10% from ${name()}`,
    () => `delay ${below(2)}-2`, () => "delay 0-0"];
  const first = ["host a", "host b --addr 10.0.0.2 --mtu 576", "host c --addr 10.0.0.3 --mtu 68 --mbufs 40",
    "wire a b c", ...["a", "b", "c"].flatMap(it => [`${it}: socket`, `${it}: bind 3 0.0.0.0 7`])];
  const more = Array.from({ length: 60 }, () => (below(3) ? `${name()}: ${any(calls)()}` : any(wire)()));
  return [...first, ...more, ""].join("\n");
}

function tryRandomWires(engine) {
  const below = numbers(3);
  for (let i = 0; i < WIRES; i++) {
    const text = randomWire(below);
    tryHosts(`random wire ${i}`, page.traceHosts(engine, text));
    tryPlayer(engine, `random wire ${i}`, text);
  }
}

// ---- drawings of chains

// Scripts with a slot and its drawing, worked out by hand from volume 2, chapter 2: bytes to send are at the end of the
// first mbuf, at a multiple of 4 (MH_ALIGN). Those of a packet that arrived are at its beginning, after 28 bytes for
// both headers. A cluster of bytes to send begins with 56 free bytes. A copy refers to the same cluster.
const LARGE = "61".repeat(300), OTHER = "62".repeat(300);
const DRAWN = [
  ["user 0 6869", 0, ["pkthdr 124 6869"]],
  ["wire 0 6869", 0, ["pkthdr 28 6869"]],
  ["wire 0 -", 0, ["pkthdr 28 -"]],
  [`user 0 ${LARGE}`, 0, [`pkthdr cluster 0 56 ${LARGE}`]],
  [`wire 0 ${LARGE}`, 0, [`pkthdr cluster 0 0 ${LARGE}`]],
  [`user 0 ${"61".repeat(200)}`, 0, [`pkthdr 28 ${"61".repeat(100)}`, `20 ${"61".repeat(100)}`]],
  [`user 5 ${LARGE}\nuser 3 ${OTHER}`, 5, [`pkthdr cluster 1 56 ${LARGE}`]],
  [`user 5 ${LARGE}\nuser 3 ${OTHER}\nfree 3`, 5, [`pkthdr cluster 0 56 ${LARGE}`]],
  [`user 0 ${LARGE}\ncopym 1 0 100 20`, 1, [`cluster 0 156 ${"61".repeat(20)}`]],
  [`user 0 ${LARGE}\nprepend 0 0102`, 0, ["pkthdr 124 0102", `cluster 0 56 ${LARGE}`]],
  [`user 0 ${LARGE}\ncopym 1 0 all\nadj 1 -240\nadj 1 20`, 1, [`pkthdr cluster 0 76 ${"61".repeat(40)}`]],
  [`wire 0 ${LARGE}\npullup 0 20`, 0, [`pkthdr 28 ${"61".repeat(40)}`, `cluster 0 40 ${"61".repeat(260)}`]],
  ["user 0 6869\nfree 0", 0, []],
  ["user 0 6869", 1, []],
  ["user 0 6869", 64, []],
];

function tryDrawn(engine) {
  for (const [script, slot, wanted] of DRAWN) {
    const { code, replies } = engine.draw(page.configOf(page.optionsOf([])), slot, script);
    if (code !== 0 || replies.join("\n") !== wanted.join("\n")) {
      fault(`drawing of slot ${slot} after ${script.slice(0, 30)}`, `${code}, ${replies.join("; ").slice(0, 200)}`);
    }
  }
  const none = engine.draw({ mbufs: 0, clusters: 0 }, 0, "user 0 68\n");
  if (none.code !== 1 || none.replies.length) fault("a drawing of no pool", `${none.code}, ${none.replies}`);
}

// The drawings of all slots that a script names agree with what `show`, `copydata` and `mbstat` reply after it.
function tryDrawings(engine, name, config, text) {
  const lines = page.linesOf(text), slots = page.slotsIn(lines);
  const ask = more => engine.chain(config, [...lines, ...more, ""].join("\n")).replies.slice(lines.length);
  const shown = ask([...slots.map(slot => `show ${slot}`), "mbstat"]), usage = page.usageIn(shown.pop());
  const chains = page.drawnChains(engine, config, lines, slots), clusters = page.clustersIn(chains);
  const lengths = slots.map((slot, k) => (shown[k].startsWith("len ") ? shown[k].split(" ")[1] : "0"));
  const read = ask(slots.map((slot, k) => `copydata ${slot} 0 ${lengths[k]}`));
  const counts = [...clusters.values()].map(refs => refs.length), all = [...chains.values()].flat();
  const sum = counts.reduce((n, count) => n + count, 0), most = Math.max(0, ...counts);
  const say = what => fault(name, `in its drawings ${what}`);
  if ([...clusters.keys()].some((number, k) => number !== k)) say("clusters aren't numbered as they come");
  if (all.length !== usage.used || clusters.size !== usage.usedClusters) say("are other buffers than in use");
  if (sum !== usage.refs || most !== usage.most) say("clusters are counted otherwise");
  if (all.some(it => it.front < 0 || it.behind < 0)) say("bytes lie outside their mbuf");
  const shapeOf = it =>
    it.isCluster ? `C${it.bytes.length}x${clusters.get(it.cluster).length}` : `P${it.bytes.length}`;
  slots.forEach((slot, k) => {
    const mbufs = chains.get(slot), data = mbufs.map(it => page.hexOf(it.bytes)).join("") || "-";
    const shows = mbufs.length ? ["len", lengths[k], ...mbufs.map(shapeOf)].join(" ") : "? chain";
    if (shows !== shown[k]) say(`slot ${slot} has other mbufs than it shows`);
    if (read[k] !== (mbufs.length ? `data ${data}` : "? chain")) say(`slot ${slot} has other bytes`);
    if (mbufs.slice(1).some(it => it.hasPacket)) say(`slot ${slot} has a packet header after its first mbuf`);
  });
}

// ---- random scripts

// The random scripts of each command, the lines of each, the scripts that are drawn, and the scripts with hosts on a
// wire.
const RANDOM = 100, LINES = 1000, DRAWINGS = 20, WIRES = 20;

// Numbers below a limit, the same ones each time (the generator is mulberry32).
function numbers(seed) {
  let state = seed;
  return limit => {
    state = (state + 0x6d2b79f5) | 0;
    let n = Math.imul(state ^ (state >>> 15), state | 1);
    n ^= n + Math.imul(n ^ (n >>> 7), n | 61);
    return ((n ^ (n >>> 14)) >>> 0) % limit;
  };
}

// Lines of all examples of a command in random order. In every eighth one a word is that of another line.
function randomScript(lines, below) {
  const any = () => lines[below(lines.length)];
  const mixed = () => {
    const words = any().split(" "), others = any().split(" ");
    words[below(words.length)] = others[below(others.length)];
    return words.join(" ");
  };
  return textOf(Array.from({ length: LINES }, () => (below(8) ? any() : mixed())));
}

// A line of thousands of digits in every script takes too much time. `bsdudp run` doesn't know `rcvbuf`.
const linesIn = all => all.flatMap(it => it.text.split("\n"))
  .filter(line => line && line.length < 4000 && !line.includes("rcvbuf"));

function tryRandom(engine, command, examples) {
  const below = numbers(1), lines = linesIn(examples);
  for (let i = 0; i < RANDOM; i++) {
    const script = randomScript(lines, below);
    const words = ["--mbufs", String(1 + below(100)), "--clusters", String(below(20))];
    const native = child.spawnSync(program, [command, ...words], { input: script, maxBuffer: 1 << 28 });
    const got = engine[command](page.configOf(page.optionsOf(words)), script);
    if (native.status !== 0 || got.code !== 0 || textOf(got.replies) !== native.stdout.toString()) {
      // one is enough: the others mostly differ for the same reason
      fault(command, `random script ${i} is answered otherwise by the page's module than by ${program}`);
      return;
    }
  }
}

function tryRandomDrawings(engine, examples) {
  const below = numbers(2), lines = linesIn(examples);
  for (let i = 0; i < DRAWINGS; i++) {
    const config = { mbufs: 1 + below(100), clusters: below(20) };
    tryDrawings(engine, `random script ${i} of chains`, config, randomScript(lines, below));
  }
}

// After each line of each lesson and of each example.
function tryAllStates(engine) {
  for (const script of [...scriptsOf(examples), ...scriptsOf(path.join(lessons, "run"))]) {
    const text = fs.readFileSync(script, "utf8"), isLesson = script.startsWith(lessons);
    const { own, config } = isLesson ? page.tracePlay(engine, text) : { config: configOf(script) };
    tryStates(engine, script, config, isLesson ? own.map(it => it.line) : page.linesOf(text));
  }
}

async function main() {
  const engine = await page.Engine.load(fs.readFileSync(file));
  const borders = dialogsOf(path.join(examples, "../crates/bsdudp/scripts/borders.dialogs"));
  const runs = examplesOf(examples), chains = [...examplesOf(path.join(examples, "chain")), ...borders];
  for (const it of runs) tryExample(engine, "run", it);
  for (const it of chains) tryExample(engine, "chain", it);
  for (const command of ["run", "chain", "wire"]) {
    for (const script of scriptsOf(path.join(lessons, command))) tryLesson(engine, command, script);
  }
  const exercises = scriptsOf(path.join(examples, "play")).filter(it => /exercise_/.test(it));
  for (const script of exercises) tryExercise(engine, script);
  for (const script of exercises) tryMarks(engine, script);
  tryFrames();
  const plays = ["play", "play/wire", "play/ether"].flatMap(it => scriptsOf(path.join(examples, it)));
  for (const script of plays) {
    if (!exercises.includes(script) && !OTHERS.includes(path.basename(script))) tryScript(engine, "run", script);
  }
  tryChains(engine);
  tryAllStates(engine);
  tryRandomWires(engine);
  tryDrawn(engine);
  const lessonsOfChains = scriptsOf(path.join(lessons, "chain"))
    .map(name => ({ name, config: configOf(name), text: fs.readFileSync(name, "utf8") }));
  for (const { name, config, text } of [...chains, ...lessonsOfChains]) {
    tryDrawings(engine, name, config, textOf(page.readNotes(text).lines.map(line => page.partsOf(line).asked)));
  }
  tryRandomDrawings(engine, chains);
  if (program) {
    tryRandom(engine, "run", runs);
    tryRandom(engine, "chain", chains);
  }
  process.exitCode = faults ? 1 : 0;
}

main();
