"use strict";
// The right column: the selected line, and the machine after it.

const SIGNS = { in: "⇢", out: "⇠", send: "↗", read: "↙", call: "•", tick: "◔", ask: "?", wire: "⇄", bad: "✗",
  card: "!" };
const signOf = step => {
  const kind = apartOf(step) ? "card" : !step.isOk || step.drops.length > 0 ? "bad" : step.kind;
  return h("span", { class: `sign sign-${kind}`, "aria-hidden": "true" }, SIGNS[kind]);
};
const cut = (text, most) => (text.length > most ? text.slice(0, most) + "…" : text);
const verdict = (kind, ...children) => h("p", { class: `verdict ${kind}` }, children);
const panel = (title, ...children) => h("section", { class: "panel" }, title && h("h3", {}, title), children);

// The sentence, the note of a lesson, what happened, and the reply.
function leadOf(step, note, verdicts) {
  return h("section", { class: "panel lead" },
    h("h3", {}, signOf(step),
      h("span", {}, h("code", {}, step.kind === "bad" ? cut(step.line, 40) || "an empty line" : step.verb), " ",
      step.tells)),
    note && h("p", { class: "note" }, note), verdicts,
    step.kind !== "bad" && h("p", { class: "reply" }, h("span", {}, "reply "),
      h("code", {}, cut(step.says || step.reply, 160))),
    step.below.length > 0 && belowView(step.below), isMetShown(step) && expectedView(step));
}

// The lines that the program prints below the reply.
const belowView = lines => h("ul", { class: "below", "aria-label": "below it" },
  lines.slice(0, MOST_BELOW).map(line => h("li", {}, h("code", {}, cut(line, 160)))),
  lines.length > MOST_BELOW && h("li", { class: "faint" }, `and ${lines.length - MOST_BELOW} more`));
const MOST_BELOW = 30;

// The expected reply of a line, and whether it was met.
function expectedView(step) {
  const part = partOfKey(step);
  if (part) return verdict("wait", "It comes. ", part);
  if (step.isMet) return verdict("yes", "As expected.");
  const told = differenceOf(step.wanted || step.expected, step.says || step.reply);
  return verdict("no", "Expected: ", h("code", {}, step.expected), told ? `; ${told}.` : ".");
}

const bareWord = word => word.replace(/[,.:;]$/, "");
const isSameWord = (wanted, word) => wanted === "_" || bareWord(wanted) === bareWord(word);

// The first word of an expectation that isn't the reply's, as `bsdplay --grade` says it. A mark at the end of a word
// isn't compared.
function differenceOf(wanted, reply) {
  const [words, came] = [wanted, reply].map(text => text.split(" ")), quoted = word => `“${cut(word, 40)}”`;
  const i = words.findIndex((word, at) => at >= came.length || !isSameWord(word, came[at]));
  if (i < 0) return came.length > words.length ? `${quoted(came[words.length])} is missing` : "";
  if (words[i] === ".." && i === words.length - 1) return "";
  return i < came.length ? `${quoted(came[i])} is right, not ${quoted(words[i])}` : `${quoted(words[i])} is extra`;
}

// ---- the mbufs with the bytes

// The figure is drawn when its place is in the page, because it depends on the width (main.js).
function figurePanel(title, figure, ...more) {
  const host = h("div", { class: "figure-host" });
  host.figure = figure;
  return h("section", { class: "panel wide" },
    h("div", { class: "head-of" }, h("h3", {}, title), allButton()), host, more);
}

// All queues are drawn, or only those that the line changed.
const allButton = () => h("button", { type: "button", class: "all", "aria-pressed": String(page.drawsAll), onclick() {
  page.drawsAll = !page.drawsAll;
  select(page.at);
  document.querySelector("button.all").focus();
} }, "Draw all");

const STACK_CAPTION = "An mbuf has 128 bytes, and is one of the four kinds of volume 2, figure 2.1. m_next leads to "
  + "the next mbuf of a packet, m_nextpkt to the next packet of a queue (figure 2.2).";
const CAPTIONS = {
  so_rcv: "so_rcv is a socket's receive queue (chapter 16). An mbuf before each datagram holds the sender's "
    + "address. In 4.4BSD it has type MT_SONAME and no packet header; here it has the datagram's packet header.",
  if_snd: "if_snd is the interface's output queue (chapter 3).",
  ipq: "An ipq is a datagram of which fragments are missing (chapter 10). In 4.4BSD a struct ipq is in an mbuf; here "
    + "that mbuf is allocated too, and stays empty. A fragment's rcvif is its offset × 2, plus 1 if more fragments "
    + "follow; its IP header is removed.",
};

// The captions of the parts of a state.
function captionOf({ sockets, output, unfinished }) {
  const held = { so_rcv: sockets.some(it => it.first !== null), if_snd: output.len > 0, ipq: unfinished.length > 0 };
  return [STACK_CAPTION, ...Object.keys(CAPTIONS).filter(name => held[name]).map(name => CAPTIONS[name])].join(" ");
}

const memoryView = (before, after, title = "The mbufs after this line") =>
  figurePanel(title, { after, before, caption: captionOf(after), all: page.drawsAll });

// ---- the stack

function verdictsOf(step, before, now) {
  const all = [], grown = grownIn(before, now), sent = now.output.length - before.output.length;
  if (step.error) all.push(verdict("no", h("b", {}, `Refused, ${step.error}`), `: ${step.why}.`));
  if (step.kind === "bad") all.push(faultVerdict(step));
  if (grown.length) all.push(verdict("yes",
    `Delivered: it waits in the receive queue of ${grown.map(it => `socket ${it.fd}`).join(" and ")}.`));
  if (step.kind === "send" && sent > 0) {
    const how = has(step, "ip.fragmented") ? ": the datagram was fragmented" : "";
    all.push(verdict("yes", `${plural(sent, "packet")} went to the output queue${how}.`));
  }
  if (step.packet && step.kind === "in" && !grown.length && !step.drops.some(it => ENDS.has(it.name))) {
    all.push(verdict("wait", step.packet.isFragment ? "Kept: the datagram isn't whole yet." : "Accepted."));
  }
  if (apartOf(step)) all.push(apartVerdict(step, apartOf(step)));
  else for (const it of step.drops) {
    const cause = causeIn(step, it.name), { rule } = CAUSES.find(known => known.text === cause) || {};
    const many = it.by > 1 ? `${it.by} dropped` : "Dropped";
    all.push(verdict("no", h("b", {}, many), `: ${cause} (`, h("code", {}, it.name), `)${bothSums(step, it.name)}.`,
      rule && h("span", { class: "rule" }, `The rule: ${rule}.`), GIVES_UP.has(it.name) && givenUp(step, before, now)));
  }
  if (step.data) all.push(verdict("yes", "Read: ",
    h("code", {}, step.data.length ? runsOf(step.data, 60) || readable(step.data, 60) : "no bytes")));
  return all;
}

const apartVerdict = (step, { head, says, rule }) => step.drops.map(({ name }) => verdict("wait", h("b", {}, head),
  says, h("code", {}, name), `)${bothSums(step, name)}.`, h("span", { class: "rule" }, rule)));

// Counters of unfinished datagrams that were dropped.
const GIVES_UP = new Set(["ip.fragtimeout", "ip.reclaimed"]);

// Datagrams that a line dropped: they were unfinished before it, and it completed no datagram.
function givenUp(step, before, now) {
  const left = now.pieces.map(it => it.key), gone = before.pieces.filter(it => !left.includes(it.key));
  const lineOf = it => h("span", { class: "rule" }, `${it.key}: bytes ${bytesText(it)} came.`);
  return has(step, "ip.reassembled") ? [] : gone.map(lineOf);
}

// The cause of a drop: the program's cause, or otherwise the meaning of the counter.
const causeIn = ({ causes }, name) => (causes && causes.get(name)) || COUNTERS[name];

// What is wrong with a line that did nothing, and the command that was meant.
const faultVerdict = step => [verdict("no", h("b", {}, "The line does nothing: "),
  step.column ? `column ${step.column}, ` : "", worded(step.why), "."), mendView(step)];

// The program's text, with the parts between backticks shown as script text.
const worded = text => text.split("`").map((part, i) => (i % 2 ? h("code", {}, part) : part));

// For a wrong checksum: the value in the packet, and the right value.
function bothSums({ packet, wrongSum }, name) {
  const said = name.endsWith(".badsum") && packet && (wrongSum || packet.wrongSum);
  return said ? `: ${said}` : "";
}

const IP_HEADER = 20;

// The same for a datagram that the last of these lines completed, from its fragments; null if they overlap.
function wrongSumOf(steps) {
  const { packet, changed } = steps[steps.length - 1], fragments = new Map();
  if (!packet || !packet.isFragment || !has({ changed }, "udp.badsum")) return null;
  const keyOf = it => [it.source, it.destination, it.id].join();
  for (const { kind, packet: it } of steps) {
    if (kind === "in" && it.isFragment && it.carried.length && keyOf(it) === keyOf(packet)) fragments.set(it.offset, it);
  }
  const bytes = [...packet.bytes.subarray(0, IP_HEADER)];
  let part = fragments.get(0);
  while (part && part.hasMore) {
    bytes.push(...part.carried);
    part = fragments.get(bytes.length - IP_HEADER);
  }
  if (!part) return null;
  const { udpSum, rightUdpSum } = headerOf(Uint8Array.from([...bytes, ...part.carried]));
  return sumsSaid(hex16(udpSum), hex16(rightUdpSum));
}

// The checks of a packet in order, up to the one that failed.
function checksOf(step) {
  const end = step.drops.find(it => ENDS.has(it.name));
  // a counted packet had its own buffers, so a later buffer was lacking
  const failed = end && end.name === "nobufs" && has(step, "ip.total") ? "nobufs later" : end && end.name;
  const isOfFragments = name => name === "ip.badfrag" || name === "ip.fragdropped";
  const isReached = name => failed || !step.packet.isFragment || !name.startsWith("udp.")
    || has(step, "ip.reassembled");
  const isShown = name => name === failed || !(name === "nobufs later" || name === "udp.noportbcast"
    || (isOfFragments(name) && !step.packet.isFragment) || !isReached(name));
  const all = CHECKS.filter(([name]) => isShown(name)),
    last = failed ? all.findIndex(([name]) => name === failed) : all.length;
  return h("ol", { class: "checks" }, all.map(([name, what], i) => {
    const apart = i === last && apartOf(step);
    const [kind, mark, told] = i < last ? ["pass", "✓", "passed: "] : apart ? ["card", "!", `${apart.head.toLowerCase()}: `]
      : i === last ? ["fail", "✗", "failed: "]
      : ["not", "·", "not reached: "];
    return h("li", { class: kind }, h("span", { "aria-hidden": "true" }, mark), h("span", { class: "unseen" }, told),
      h("span", {}, what, i === last && [" (", h("code", {}, name.split(" ")[0]), ")", bothSums(step, name)]));
  }));
}

const buffersOf = it => `${plural(it.mbufs, "mbuf")}${it.refs ? ` and ${plural(it.refs, "cluster")}` : ""}`;

function queueOf(kind, queue, fresh, tell) {
  const items = queue.slice(0, 10)
    .map((it, i) => h("li", { class: `datagram of-${kind}${i >= queue.length - fresh ? " new" : ""}` }, tell(it)));
  return h("ul", { class: "queue" }, items,
    queue.length > 10 && h("li", { class: "faint" }, `and ${queue.length - 10} more`));
}

function socketView(socket, before) {
  const old = before.sockets.find(it => it.fd === socket.fd),
    fresh = socket.queue.length - (old ? old.queue.length : 0);
  const about = [socket.local ? `bound to ${socket.local}` : "has no port", socket.peer && `peer ${socket.peer}`,
    ...socket.options];
  const tell = it => [h("small", {}, it.from),
    h("code", {}, it.data.length ? runsOf(it.data, 24) || readable(it.data, 10) : "no bytes"),
    h("small", {}, `${plural(it.data.length, "byte")}, ${buffersOf(it)}`)];
  return h("div", { class: "holder" }, h("b", {}, `socket ${socket.fd}`), " ",
    h("span", { class: "faint" }, about.filter(Boolean).join(", ")),
    socket.queue.length ? queueOf("queue", socket.queue, fresh, tell) : h("p", { class: "faint" }, "The receive queue is empty."));
}

function outputView(output, before) {
  const tell = ({ packet, ...it }) => [
    h("small", {},
      `to ${dotted(packet.destination)}${packet.destinationPort === undefined ? "" : ":" + packet.destinationPort}`),
    h("code", {},
      packet.isFragment ? `bytes ${packet.offset} to ${packet.offset + packet.carried.length - 1}`
      : readable(packet.data, 10) || "no bytes"),
    h("small", {}, `${plural(packet.length, "byte")}, ${buffersOf(it)}`)];
  return h("div", { class: "holder" }, h("b", {}, "output queue"), " ",
    h("span", { class: "faint" }, `${output.length} of 50`),
    queueOf("output", output, output.length - before.output.length, tell));
}

const sortedPieces = ({ pieces }) => [...pieces].sort((a, b) => a.from - b.from);
const bytesText = it => sortedPieces(it).map(({ from, to }) => `${from} to ${to - 1}`).join(", ");

// The pieces of an unfinished datagram in order, on one scale.
function piecesView(datagram, most) {
  const { key, pieces, end } = datagram, whole = end || Math.max(...pieces.map(it => it.to));
  const bars = sortedPieces(datagram).map(it =>
    h("i", { style: `left: ${(100 * it.from) / whole}%; width: ${(100 * (it.to - it.from)) / whole}%` }));
  return h("div", { class: "pieces" }, h("small", {}, key),
    h("div", { class: `pieces-bar${end ? "" : " open"}`, "aria-hidden": "true",
      style: `width: ${(100 * whole) / most}%` }, bars),
    h("small", {}, `has bytes ${bytesText(datagram)}${end ? ` of ${end}` : "; its length isn't known yet"}`));
}

function unfinishedView({ pieces, owned }) {
  const least = Math.min(...pieces.map(it => it.ticks));
  const most = Math.max(...pieces.map(it => it.end || Math.max(...it.pieces.map(piece => piece.to))));
  const until = pieces.length > 0 && `, the next one expires in ${plural(least, "tick")}`;
  return h("div", { class: "holder" }, h("b", {}, "unfinished datagrams"), " ",
    h("span", { class: "faint" }, `${plural(owned.unfinished.mbufs, "mbuf")}${until || ""}`),
    pieces.slice(0, 6).map(it => piecesView(it, most)),
    pieces.length > 1 && h("p", { class: "faint" }, `All bars have one scale: the longest is ${plural(most, "byte")}.`),
    pieces.length > 6 && h("p", { class: "faint" }, `and ${pieces.length - 6} more`));
}

// Buffers by owner. The rest is shared between owners, so none of them can free it by itself.
function ownersOf({ owned }, name, used) {
  const parts = [["receive queues", "queue"], ["output queue", "output"], ["unfinished datagrams", "unfinished"]]
    .map(([who, kind]) => ({ name: who, kind, count: owned[kind][name] }));
  const rest = Math.max(0, used - parts.reduce((n, it) => n + it.count, 0));
  return [...parts, { name: "shared between owners", kind: "shared", count: rest }];
}

function machineView({ pool }, before, now, title = "The host after this line") {
  const mbufs = ownersOf(now, "mbufs", pool.used),
    clusters = ownersOf(now, "clusters", pool.usedClusters);
  const legend = [...mbufs.filter((it, i) => i < 3 || it.count + clusters[i].count), { name: "free", kind: "free" }];
  return panel(title,
    poolBar("mbufs", pool.mbufs, mbufs), poolBar("clusters", pool.clusters, clusters),
    h("p", { class: "legend" }, legend.map(it => h("span", { class: `of-${it.kind}` }, it.name))),
    pool.most > 1 && h("p", { class: "faint" }, `The most shared cluster has ${pool.most} references.`),
    now.sockets.map(socket => socketView(socket, before)),
    now.output.length > 0 && outputView(now.output, before), now.owned.unfinished.mbufs > 0 && unfinishedView(now));
}

function countersView(step, name = "counters") {
  const rows = Object.entries(step.counters).map(([name, n]) => {
    const change = step.changed.find(it => it.name === name);
    return h("tr", { class: change ? (DROPS.has(name) ? "dropped" : "changed") : null },
      h("th", { scope: "row" }, h("code", {}, name)), h("td", {}, String(n)),
        h("td", {}, change ? `+${change.by}` : ""), h("td", {}, COUNTERS[name]));
  });
  return rows.length > 0 && panel("Counters", scroller(name, h("table", { class: "counters" }, rows)));
}

// The packet of a line with its checks, or the first packets that it put into the output queue.
function packetsOfLine(step, before, now) {
  const about = [];
  if (step.packet && step.kind === "in") about.push(panel("The checks, in order", checksOf(step)));
  if (step.packet) about.push(panel(null,
    packetView(step.packet, step.kind === "in" ? "From the wire" : "To the wire")));
  const sent = step.kind === "send" ? now.output.slice(before.output.length) : [];
  sent.slice(0, 3)
    .forEach((it, i) =>
    about.push(panel(null, packetView(it.packet, `Packet ${i + 1} of ${sent.length} in the output queue`))));
  return about;
}

function stackView(page, step) {
  const now = page.heldAfter(step.number), before = page.heldAfter(step.number - 1);
  const memory = memoryView(before.state, now.state), { addr, mtu } = page.options;
  if (step.packet && step.kind === "in") step.wrongSum = wrongSumOf(page.own.slice(0, page.ranAfter(step.number)));
  const about = packetsOfLine(step, before, now);
  const title = ["The host after this line ", h("span", { class: "faint" }, `${addr}, MTU ${mtu}`)];
  const state = [machineView(step, before, now, title), countersView(step)];
  const lead = leadOf(step, page.noteOf(step), verdictsOf(step, before, now));
  const packets = about.length > 0 && h("div", { class: "column" }, about);
  const machine = h("div", { class: "column" }, state);
  // for a dropped packet, the checks are most useful
  const isDropped = step.packet && step.kind === "in" && step.drops.length > 0;
  return isDropped ? [lead, packets, machine, memory] : [lead, memory, packets, machine];
}

// ---- chains

// The owners of each shared cluster, in words.
function sharersView({ mbufs, clusters }) {
  const shared = Object.entries(clusters).filter(([, count]) => count > 1);
  const partOf = it => `mbuf ${it.n} has ${plural(it.len, "byte")} from ${it.data.toLocaleString("en")} on`;
  const told = ([n, count]) => {
    const parts = mbufs.filter(it => it.cluster === +n).slice(0, 8).map(partOf).join(", ");
    return h("li", {}, h("b", {}, `Cluster ${n}`), ` has ${count} references: ${parts}${count > 8 ? ", .." : ""}.`);
  };
  return shared.length > 0 && h("ul", { class: "sharers" }, shared.map(told));
}

const CHAIN_CAPTION = "An mbuf has 128 bytes. Its header takes 20, and a packet header 8 more. Volume 2, figure 2.1, "
  + "shows its four kinds. A cluster has 2,048 bytes, and a reference count: the number of mbufs that refer to it.";

function chainsView(step, before, after) {
  const title = "The chains after this line";
  if (!after.chains.length && !(before && before.chains.length)) {
    return panel(title, h("p", { class: "faint" }, "There are no chains."));
  }
  const refused = refusedIn(step, page.drawnAfter(step.number), clustersIn(page.drawnAfter(step.number)));
  const marked = [...refused].map(n => after.named.get(n).n);
  return figurePanel(title, { after, before, caption: CHAIN_CAPTION, all: page.drawsAll, marked }, sharersView(after));
}

function chainView(page, step) {
  const refused = !step.isOk && verdict("no", h("b", {}, step.reply), `: ${step.why}. The line changed nothing.`);
  const before = page.chainsAfter(step.number - 1), after = page.chainsAfter(step.number);
  const pool = step.pool, inChains = count => [{ name: "in chains", kind: "queue", count }];
  const many = pool.refs > pool.usedClusters ? " So their bytes are shared, not copied." : "";
  const refer = `${plural(pool.refs, "mbuf")} ${pool.refs === 1 ? "refers" : "refer"}`;
  const told = `${refer} to ${plural(pool.usedClusters, "cluster")}; the highest reference count is ${pool.most}.${many}`;
  return [leadOf(step, page.noteOf(step), refused), chainsView(step, before, after),
    panel("The pool after this line", poolBar("mbufs", pool.mbufs, inChains(pool.used)),
      poolBar("clusters", pool.clusters, inChains(pool.usedClusters)),
      h("p", { class: "faint" }, pool.refs ? told : "No cluster is used."))];
}
