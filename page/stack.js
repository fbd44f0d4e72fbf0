"use strict";
// Queries to a machine. All that the page shows about a state comes from the program: the page plays the script again
// with more lines, and discards that run.

// The program's description of each counter, in the order of `stat`.
const COUNTERS = {};

function askMeanings(engine) {
  const [{ below }] = engine.play(DEFAULT_CONFIG, "show counters\n").objects;
  for (const line of linesOf(below)) {
    const [, name, what] = /^ *(\S+) \d+: (.*)$/.exec(line);
    COUNTERS[name] = what;
  }
}

// The checks of a packet that arrives, in order, each with the counter of its failure: the rules of `bsdplay why`,
// without their sources. A packet that gets buffers may lack more of them later.
const CHECKS = [...CAUSES.filter(it => it.counter === "nobufs"), ...CAUSES.filter(it => it.counter !== "nobufs")]
  .map(({ counter, rule }) => [counter, rule.replace(/ \([^()]*\)$/, "")])
  .concat([["nobufs later", "the pool has buffers for its delivery"]]);
const ENDS = new Set(CHECKS.map(([name]) => name)), DROPS = new Set(DROPPED);

// ---- replies

const countersIn = reply =>
  Object.fromEntries(reply.split(" ").slice(1).map(word => word.split("=")).map(([k, n]) => [k, +n]));

// The reply to `mbstat`.
function usageIn(reply) {
  const [free, mbufs, freeClusters, clusters, refs, most] = reply.match(/\d+/g).map(Number);
  return { free, mbufs, freeClusters, clusters, refs, most, used: mbufs - free, usedClusters: clusters - freeClusters };
}

const emptyPool = ({ mbufs, clusters }) =>
  usageIn(`mbufs ${mbufs}/${mbufs} clusters ${clusters}/${clusters} refs 0 most 0`);

// The oldest datagram in a queue, from the reply to `recvfrom`; or nothing.
function datagramIn(reply) {
  const [word, ip, port, hex] = reply.split(" ");
  return word === "from" ? { from: `${ip}:${port}`, data: bytesOf(hex) } : null;
}

// ---- the steps of a script

// Plays the script with `stat` and `mbstat` after each line, which change nothing.
function traceStack(engine, config, lines) {
  const { code, replies } = engine.run(config, lines.map(line => line + "\nstat\nmbstat\n").join(""));
  const steps = [];
  let counters = {}, pool = emptyPool(config);
  lines.slice(0, Math.floor(replies.length / 3)).forEach((line, i) => {
    const [reply, stat, mbstat] = replies.slice(3 * i, 3 * i + 3);
    const now = countersIn(stat);
    const changed = Object.keys(COUNTERS)
      .map(name => ({ name, by: (now[name] || 0) - (counters[name] || 0) }))
      .filter(({ by }) => by !== 0);
    const step = { number: i + 1, line, reply, counters: now, changed, before: pool, pool: usageIn(mbstat) };
    steps.push(Object.assign(step, tellStep(step)));
    counters = now;
    pool = step.pool;
  });
  return { code, steps };
}

const has = (step, name) => step.changed.some(it => it.name === name);

// Each kind of line in words. `w` are its words.
const at = (ip, port) => `${ip}:${port}`;
const portName = port => (port === "0" ? "a port that the host chooses" : `port ${port}`);
const STACK_TELLS = {
  socket: (w, step) => ["call", step.reply.startsWith("ok") ? `descriptor ${step.reply.slice(3)}` : "a socket"],
  bind: (w, step) => ["call", `socket ${w[1]} ${step.reply === "ok" ? "is bound to" : "requests"} `
    + `${w[2] === "0.0.0.0" ? "any address" : w[2]}, ${portName(w[3])}`],
  connect: w => ["call", `socket ${w[1]} with ${at(w[2], w[3])}`],
  sendto: w => ["send", `socket ${w[1]} sends ${plural(bytesOf(w[4]).length, "byte")} to ${at(w[2], w[3])}`],
  send: w => ["send", `socket ${w[1]} sends ${plural(bytesOf(w[2]).length, "byte")} to its peer`],
  close: w => ["call", `socket ${w[1]} and its receive queue`],
  setsockopt: w => ["call", `socket ${w[1]}: `
    + (w[2] === "rcvbuf" ? `a receive queue of ${plural(+w[3], "byte")}` : `${w[2]} ${w[3] === "1" ? "on" : "off"}`)],
  tick: () => ["tick", "half a second passes"],
  stat: () => ["ask", "counters other than 0"],
  mbstat: () => ["ask", "free and used buffers of the pool"],
};

function tellStep(step) {
  const words = step.line.split(" "), verb = words[0];
  const drops = step.changed.filter(({ name }) => DROPS.has(name));
  const common = { verb, drops, isOk: true };
  if (step.reply === "? line") return { ...common, kind: "bad", isOk: false, tells: "not a line of the script" };
  if (verb === "rx") {
    const packet = new Packet(bytesOf(words[1]));
    return { ...common, kind: "in", packet, tells: packet.tells };
  }
  if (verb === "tx") {
    if (step.reply === "none") return { ...common, kind: "out", tells: "the output queue is empty" };
    const packet = new Packet(bytesOf(step.reply.slice("packet ".length)));
    return { ...common, kind: "out", packet, tells: packet.tells };
  }
  if (verb === "recvfrom") return { ...common, ...tellRead(words, step.reply) };
  const [kind, tells] = STACK_TELLS[verb](words, step);
  return { ...common, kind, tells, ...refusalIn(step.reply) };
}

function tellRead(words, reply) {
  const got = datagramIn(reply);
  if (!got) return { kind: "read", tells: `socket ${words[1]} reads a datagram`, ...refusalIn(reply) };
  const tells = `socket ${words[1]} reads ${plural(got.data.length, "byte")} from ${got.from}`;
  return { kind: "read", tells, data: got.data };
}

function refusalIn(reply) {
  const found = /^error \d+ (.*)$/.exec(reply);
  return found ? { isOk: false, error: found[1], why: ERRORS[found[1]] } : {};
}

// ---- the state

// The state after this many lines: the mbufs, from the program, and the bytes of queued packets and datagrams. The
// program prints them in a run that is then discarded.
class Held {
  constructor(engine, config, lines) {
    this.state = engine.state(config, lines.map(line => line + "\n").join(""));
    const [sockets, unfinished] = shownAfter(engine, config, lines, ["sockets", "unfinished"]), { state } = this;
    const chainsOf = chainsIn(state), trains = state.sockets.map(it => chainsOf(it.first));
    const output = chainsOf(state.output.first);
    const asked = [...state.sockets.flatMap(({ fd }, i) => trains[i].map(() => `recvfrom ${fd} 65535`)),
      ...output.map(() => "tx")];
    const replies = engine.run(config, [...lines, ...asked, ""].join("\n")).replies.slice(lines.length);
    const queues = new Map(state.sockets.map(({ fd }, i) =>
      [fd, trains[i].map(chain => ({ ...datagramIn(replies.shift()), ...buffersIn(chain) }))]));
    for (const [i, { fd }] of state.sockets.entries()) {
      trains[i].forEach((chain, k) => showBytes(chain, queues.get(fd)[k].data));
    }
    this.sockets = sockets.map(socketIn).map(socket => ({ ...socket, queue: queues.get(socket.fd) }));
    this.output = output.map(chain => ({ ...packetIn(replies.shift()), ...buffersIn(chain) }));
    this.pieces = unfinished.map(piecesIn).filter(Boolean);
    const late = state.unfinished.flatMap(it => [...chainsOf(it.mbuf), ...chainsOf(it.first)]);
    this.owned = ownedBy({ queue: trains.flat(2), output: output.flat(), unfinished: late.flat() });
  }
}

// The program's state has the first 32 bytes of an mbuf. Those of a datagram in a receive queue are all known: they
// follow the mbuf of its sender's address, and the figure shows them.
function showBytes([, ...mbufs], data) {
  let at = 0;
  for (const it of mbufs) {
    it.known = hexOf(data.subarray(at, at + Math.min(it.len, MOST_OF_MBUF)));
    at += it.len;
  }
}
const MOST_OF_MBUF = 128;

// The mbufs from a first one on, following their links, chain by chain.
function chainsIn({ mbufs }) {
  const at = new Map(mbufs.map(it => [it.n, it]));
  const walk = (n, link) => {
    const all = [];
    for (let it = at.get(n); it; it = at.get(it[link])) all.push(it);
    return all;
  };
  return first => walk(first, "nextpkt").map(it => walk(it.n, "next"));
}

const buffersIn = chain => ({ mbufs: chain.length, refs: chain.filter(it => it.cluster !== null).length });

// How many buffers each owner has: its mbufs, and the clusters to which no other owner's mbuf refers.
function ownedBy(owners) {
  const clustersOf = mbufs => new Set(mbufs.map(it => it.cluster).filter(n => n !== null));
  const all = Object.entries(owners).map(([name, mbufs]) => ({ name, mbufs, clusters: clustersOf(mbufs) }));
  const isShared = (n, name) => all.some(it => it.name !== name && it.clusters.has(n));
  return Object.fromEntries(all.map(({ name, mbufs, clusters }) =>
    [name, { mbufs: mbufs.length, clusters: [...clusters].filter(n => !isShared(n, name)).length }]));
}

// The lines below each of these topics, after a script.
function shownAfter(engine, config, lines, topics) {
  const { objects } = engine.play(config, [...lines, ...topics.map(it => `show ${it}`), ""].join("\n"));
  return objects.slice(-topics.length).map(it => linesOf(it.below).map(line => line.trim()));
}

// A socket, from the program's line.
function socketIn(text) {
  const [, fd, about] = /^socket (\d+): ([^;]*);/.exec(text), [local, ...others] = about.split(", ");
  const name = local.replace("local ", ""), peer = others.find(it => it.startsWith("peer "));
  return { fd: +fd, local: name === "*:*" ? null : name, peer: peer ? peer.replace("peer ", "") : null,
    options: others.filter(it => it !== peer) };
}

// The pieces of an unfinished datagram that arrived, from the program's line.
function piecesIn(text) {
  const [, id, source, destination, ticks, rest]
    = /^datagram (\d+) of udp (\S+) > (\S+): (\d+) ticks? left, \d+ bytes? held; (.*)$/.exec(text) || [];
  if (!rest) return null;
  const pieces = [...rest.matchAll(/(\d+) to (\d+)/g)].map(([, from, to]) => ({ from: +from, to: +to + 1 }));
  const end = rest.endsWith("the end") ? pieces[pieces.length - 1].to : null;
  return { key: `${source} → ${destination}, identification ${id}`, ticks: +ticks, pieces, end };
}

const packetIn = reply => ({ packet: new Packet(bytesOf(reply.slice("packet ".length))) });
const sumOf = (queue, name) => queue.reduce((n, it) => n + it[name], 0);

// Sockets whose queue has more datagrams than before.
function grownIn(before, now) {
  const was = fd => before.sockets.find(socket => socket.fd === fd);
  return now.sockets.filter(socket => socket.queue.length > (was(socket.fd) ? was(socket.fd).queue.length : 0));
}
