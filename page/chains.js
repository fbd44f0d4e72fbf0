"use strict";
// Scripts of calls on chains: what the page queries from the machine.

const bytesIn = word => plural(bytesOf(word || "-").length, "byte");
const partOf = w => (w[3] === "all" ? "all" : `${w[4]} bytes from ${w[3]} on`);
const CHAIN_TELLS = {
  user: w => `stores ${bytesIn(w[2])} to send as chain ${w[1]}`,
  wire: w => `stores a packet of ${bytesIn(w[2])} that arrived as chain ${w[1]}`,
  copym: w => `chain ${w[1]} becomes a copy of ${partOf(w)} of chain ${w[2]}`,
  prepend: w => `${bytesIn(w[2])} before those of chain ${w[1]}`,
  pullup: w => `the first ${w[2]} bytes of chain ${w[1]} into one mbuf`,
  adj: w => `${w[2].replace("-", "")} bytes off the ${w[2].startsWith("-") ? "back" : "front"} of chain ${w[1]}`,
  split: w => `the first ${w[3]} bytes stay in chain ${w[2]}, the others become chain ${w[1]}`,
  cat: w => `chain ${w[2]} is joined to the end of chain ${w[1]}`,
  copyback: w => `writes ${bytesIn(w[3])} over chain ${w[1]} from ${w[2]} on`,
  copydata: w => `${w[3]} bytes of chain ${w[1]} from ${w[2]} on`,
  show: w => `the mbufs of chain ${w[1]}`,
  free: w => `chain ${w[1]} is freed`,
  mbstat: () => "how much of the pool is in use",
};
const CHAIN_ASKS = ["show", "mbstat", "copydata"];
const CHAIN_FAULTS = {
  "? line": "not a line of the script",
  "? chain": "a slot that must have a chain is empty, or one that must be empty isn't",
  "? range": "the bytes that are named aren't in the chain, or it would be longer than 65,535 bytes",
  shared: "a byte of the range is in a cluster that another mbuf refers to: a write would change that chain too",
  toolong: "one mbuf of a packet holds 100 bytes at most",
  tooshort: "the chain has fewer bytes",
  nobufs: "fewer mbufs or clusters are free than this takes",
};

// The mbufs of a chain, from the reply to `show`; or nothing.
function chainIn(reply) {
  const [word, length, ...mbufs] = reply.split(" ");
  if (word !== "len") return null;
  const shapeIn = text => {
    const [bytes, count] = text.slice(1).split("x").map(Number);
    return { isCluster: text.startsWith("C"), bytes, count };
  };
  return { length: +length, mbufs: mbufs.map(shapeIn) };
}

// The slots that a script names.
function slotsIn(lines) {
  const named = new Set();
  for (const line of lines) {
    const [verb, ...words] = line.split(" ");
    const places = ["copym", "split", "cat"].includes(verb) ? 2 : verb in CHAIN_TELLS && verb !== "mbstat" ? 1 : 0;
    words.slice(0, places).filter(word => /^(0|[1-9]\d?)$/.test(word) && +word < 64).forEach(word => named.add(+word));
  }
  return [...named].sort((a, b) => a - b);
}

// Plays the script with `mbstat` and `show` of each slot after each line, which change nothing.
function traceChains(engine, config, lines) {
  const slots = slotsIn(lines), each = slots.length + 2;
  const asks = "\nmbstat\n" + slots.map(slot => `show ${slot}\n`).join("");
  const { code, replies } = engine.chain(config, lines.map(line => line + asks).join(""));
  const steps = [];
  let pool = emptyPool(config);
  lines.slice(0, Math.floor(replies.length / each)).forEach((line, i) => {
    const [reply, mbstat, ...shown] = replies.slice(each * i, each * i + each);
    const chains = new Map();
    slots.forEach((slot, k) => { if (chainIn(shown[k])) chains.set(slot, chainIn(shown[k])); });
    const step = { number: i + 1, line, reply, chains, before: pool, pool: usageIn(mbstat) };
    steps.push(Object.assign(step, tellChainStep(line, reply)));
    pool = step.pool;
  });
  return { code, steps };
}

function tellChainStep(line, reply) {
  const words = line.split(" "), verb = words[0], why = CHAIN_FAULTS[reply];
  const common = { verb, isOk: !why, why, changed: [], drops: [] };
  if (reply === "? line") return { ...common, kind: "bad", tells: why };
  return { ...common, kind: CHAIN_ASKS.includes(verb) ? "ask" : "call", tells: CHAIN_TELLS[verb](words) };
}

// ---- mbuf by mbuf

// An mbuf has 128 bytes. 20 of them are its header, and 8 more a packet's header, if it has one. A cluster has 2,048.
const MBUF = { size: 128, header: 20, packet: 8 };
const CLUSTER = 2048;

// An mbuf, from its line of a drawing: whether it has a packet header, the number of its cluster, the offset of its
// bytes in the mbuf or in the cluster, the bytes, and the space before and after them. `text` is all of that except the
// cluster's number, to compare an mbuf with the one before.
function mbufIn(line) {
  const [, packet, cluster, start, hex] = /^(pkthdr )?(?:cluster (\d+) )?(\d+) (\S+)$/.exec(line);
  const isCluster = cluster !== undefined, bytes = bytesOf(hex);
  const first = isCluster ? 0 : MBUF.header + (packet ? MBUF.packet : 0), size = isCluster ? CLUSTER : MBUF.size;
  return {
    hasPacket: Boolean(packet), isCluster, cluster: isCluster ? +cluster : null, start: +start, bytes,
    front: +start - first, behind: size - +start - bytes.length, text: line.replace(/cluster \d+/, "cluster"),
  };
}

// The chains of these slots after these lines, each as its mbufs.
function drawnChains(engine, config, lines, slots) {
  const script = lines.map(line => line + "\n").join("");
  return new Map(slots.map(slot => [slot, engine.draw(config, slot, script).replies.map(mbufIn)]));
}

// Each cluster with the mbufs that refer to it; their number is its reference count.
function clustersIn(chains) {
  const clusters = new Map();
  for (const [slot, mbufs] of chains) {
    mbufs.forEach((mbuf, place) => {
      if (!mbuf.isCluster) return;
      if (!clusters.has(mbuf.cluster)) clusters.set(mbuf.cluster, []);
      clusters.get(mbuf.cluster).push({ slot, place, mbuf });
    });
  }
  return clusters;
}

// The clusters because of which a write was refused: those that are shared, and have a byte of the range.
function refusedIn(step, chains, clusters) {
  const [, slot, off, hex] = step.line.split(" "), refused = new Set();
  if (step.reply !== "shared") return refused;
  const to = +off + bytesOf(hex).length;
  let from = 0;
  for (const { cluster, bytes } of chains.get(+slot) || []) {
    const isHit = from < to && +off < from + bytes.length;
    if (isHit && cluster !== null && clusters.get(cluster).length > 1) refused.add(cluster);
    from += bytes.length;
  }
  return refused;
}

// ---- in the form of a figure

// The most lines of a script whose mbufs keep their numbers from line to line.
const MOST_LINES = 600;
// The number of an mbuf's first bytes that are kept for display.
const SHOWN_BYTES = 32;

const lengthOf = mbufs => mbufs.reduce((n, it) => n + it.bytes.length, 0);

// The lowest numbers that aren't used by these or by those before, one for each without a number.
function number(all, before = []) {
  const used = new Set([...before, ...all.map(it => it.n)]);
  let next = 0;
  for (const it of all) {
    if (it.n !== undefined) continue;
    while (used.has(next)) next++;
    it.n = next;
    used.add(next);
  }
}

// The head of an mbuf. The first one of a chain has the chain's length.
function headOf(it, next, pkthdr, clusters) {
  const isFirst = pkthdr !== null && it.hasPacket;
  return {
    n: it.n, next: next ? next.n : null, nextpkt: null, len: it.bytes.length, data: it.start, type: 1,
    pkthdr: isFirst ? pkthdr : null, rcvif: isFirst ? 0 : null,
    cluster: it.cluster === null ? null : clusters.get(it.cluster).n, bytes: hexOf(it.bytes.subarray(0, SHOWN_BYTES)),
  };
}

// The chains in the form of a figure. Numbers are kept from the state before: an mbuf's by its bytes, a cluster's by an
// mbuf that referred to it.
function chainState(chains, before) {
  const olds = before ? before.mine : new Map(), was = before ? [...olds.values()].flat() : [];
  const own = ({ hasPacket, cluster, start, bytes }) => ({ hasPacket, start, bytes, cluster });
  const mine = new Map([...chains].map(([slot, all]) => [slot, all.map(own)]));
  const gone = [...olds].flatMap(([slot, its]) => (mine.has(slot) ? [] : its)), taken = new Set();
  for (const [slot, news] of mine) keepChain([...(olds.get(slot) || []), ...gone], news, taken);
  const all = [...mine.values()].flat(), named = new Map();
  number(all, was.map(it => it.n));
  for (const { cluster, oldCluster } of all) {
    if (cluster === null) continue;
    const it = named.get(cluster) || named.set(cluster, { count: 0 }).get(cluster);
    it.count += 1;
    if (oldCluster !== undefined) it.n = oldCluster;
  }
  number([...named.values()], was.map(it => it.number).filter(n => n !== undefined));
  for (const it of all) if (it.cluster !== null) it.number = named.get(it.cluster).n;
  const mbufs = [];
  const slots = [...mine].map(([slot, its]) => {
    const len = lengthOf(its);
    its.forEach((it, k) => mbufs.push(headOf(it, its[k + 1], k ? null : len, named)));
    return { slot, len, first: its[0].n };
  });
  const clusters = Object.fromEntries([...named.values()].map(it => [it.n, it.count]));
  return { chains: slots, mbufs, clusters, mine, named };
}

// An mbuf keeps its number if it has a byte in common with an old one at the same place.
function keepChain(olds, news, taken) {
  const last = ({ bytes }) => bytes[bytes.length - 1], end = it => it.start + it.bytes.length;
  const isSame = (a, b) => (a.cluster === null) === (b.cluster === null) && a.bytes.length > 0 && b.bytes.length > 0
    && (a.start === b.start ? a.bytes[0] === b.bytes[0] : end(a) === end(b) && last(a) === last(b));
  for (const it of news) {
    const old = olds.find(other => !taken.has(other) && isSame(other, it));
    if (!old) continue;
    taken.add(old);
    Object.assign(it, { n: old.n, oldCluster: old.number });
  }
}
