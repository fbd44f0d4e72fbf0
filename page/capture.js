"use strict";
// Captures. The program reads the records of a capture file (crates/page), and this file makes a script from them. The
// script does what `bsdplay why` does: it has the host that `why` chooses, with the same pool and ports, and ticks at
// the capture's times (docs/captures.md).

// A script has at most this many packets. As in `why`, a host has 60 ports at once, and is one of the first 256
// addresses.
const MOST_RECORDS = 300, MOST_PORTS = 60, MOST_ADDRESSES = 256;
const LONGEST_PACKET = 65535, FIRST_MULTICAST = 0xe0000000, LIMITED_BROADCAST = 0xffffffff, LOOPBACK = 0x7f000001;
// Nanoseconds in a tick, and the most ticks that are played at once: then every unfinished datagram has expired.
const TICK = 500000000n, MOST_TICKS = 61n;

// The records that the program returns: each is a line and then its packet. The first `length` bytes are records. The
// rest says what is wrong with the file.
function recordsIn(bytes, length) {
  const records = [];
  for (let at = 0; at < length;) {
    const end = bytes.indexOf(10, at), line = textOf(bytes.subarray(at, end)).split(" ");
    const [number, whole, captured, size] = [0, 2, 3, 4].map(i => Number(line[i]));
    at = end + 1 + size;
    records.push({ number, time: line[1] === "-" ? null : BigInt(line[1]), whole, captured,
      packet: size ? bytes.subarray(end + 1, at) : null });
  }
  return { records, fault: textOf(bytes.subarray(length)) };
}

// The bytes of a file. The browser decompresses a gzip file. If it can't, the file is returned unchanged.
async function unpacked(file) {
  const bytes = new Uint8Array(await file.arrayBuffer());
  if (bytes[0] !== 0x1f || bytes[1] !== 0x8b || !globalThis.DecompressionStream) return bytes;
  try {
    return new Uint8Array(await new Response(file.stream().pipeThrough(new DecompressionStream("gzip"))).arrayBuffer());
  } catch (fault) {
    return bytes;
  }
}

// ---- the host

// The address below 224.0.0.0 to which most datagrams are sent, the first one of several; or null.
function busiestAddress(packets) {
  const counts = new Map();
  for (const { isShort, protocol, destination } of packets) {
    if (isShort || protocol !== 17 || destination >= FIRST_MULTICAST) continue;
    if (!counts.has(destination) && counts.size >= MOST_ADDRESSES) continue;
    counts.set(destination, (counts.get(destination) || 0) + 1);
  }
  let busiest = null;
  for (const [address, count] of counts) if (busiest === null || count > counts.get(busiest)) busiest = address;
  return busiest;
}

// The broadcast address of a network of 256 addresses.
const broadcastOf = address => (((address | 255) >>> 0) === address ? address - 1 : (address | 255) >>> 0);

// The settings of a host that receives packets for this address. Every host also has 127.0.0.1, so a capture of a
// loopback interface gets a host with another address.
function hostFor(address) {
  const addr = address === LOOPBACK ? undotted(DEFAULTS.addr) : address;
  return { ...DEFAULTS, addr: dotted(addr), bcast: dotted(broadcastOf(addr)), mbufs: "65535", clusters: "4096" };
}

// Whether a packet is for this address, or too short to have one.
const isFor = (address, { isShort, destination }) =>
  isShort || [address, broadcastOf(address), LIMITED_BROADCAST].includes(destination);

// ---- time

// Sets the time of each record: nanoseconds since the first one. A record without a time has that of the one before it.
function withTimes(records) {
  let last = 0n, first = null;
  return records.map(it => {
    if (it.time !== null) last = it.time;
    if (first === null) first = last;
    return { ...it, since: last > first ? last - first : 0n };
  });
}

// Sets the ticks before each record, and how many of them are played.
function withTicks(records) {
  let passed = 0n;
  return records.map(it => {
    const due = it.since / TICK, ticks = due > passed ? due - passed : 0n;
    passed += ticks;
    return { ...it, ticks: Number(ticks), played: Number(ticks < MOST_TICKS ? ticks : MOST_TICKS) };
  });
}

const secondsOf = nanoseconds =>
  `${nanoseconds / 1000000000n}.${String((nanoseconds % 1000000000n) / 1000n).padStart(6, "0")}`;

// ---- ports

// The destination port of a packet that contains the beginning of a datagram; or null.
const frontPort = ({ bytes, isShort, says, protocol, offset }) =>
  (!isShort && says.parts === 2 && bytes[0] === 0x45 && protocol === 17 && offset === 0 ? says.destinationPort : null);

// The first ports of the records are bound before any packet arrives. When 60 are bound and another one is needed, the
// oldest is closed. The socket at place i has the descriptor i + 3: descriptors are reused.
class BoundPorts {
  constructor(records) {
    const all = records.map(it => frontPort(it.packet)).filter(port => port);
    this.all = [...new Set(all)].slice(0, MOST_PORTS);
    this.next = 0;
    this.first = this.all.flatMap((port, i) => ["socket", `bind ${i + 3} 0.0.0.0 ${port}`]);
    this.reads = this.all.map((_, i) => `recvfrom ${i + 3} 65535`);
  }

  // The lines that bind the port of a packet, if it isn't bound.
  linesFor(packet) {
    const port = frontPort(packet), place = this.next % MOST_PORTS, fd = place + 3;
    if (!port || this.all.includes(port)) return [];
    this.all[place] = port;
    this.next = place + 1;
    return [`close ${fd}`, "socket", `bind ${fd} 0.0.0.0 ${port}`];
  }
}

// ---- the script

// A script in which the packets of a capture arrive at the host that receives most datagrams. Its ports are bound, and
// it reads each delivered datagram at once. `counts` has the number of records, of IPv4 packets, of those for the host,
// and of those in the script. If there's no script, `fault` says why.
function captureScript(engine, all) {
  const packets = withTimes(all).filter(it => it.packet && it.packet.length <= LONGEST_PACKET)
    .map(it => ({ ...it, packet: new Packet(it.packet) }));
  const address = busiestAddress(packets.map(it => it.packet));
  if (address === null) return { fault: "no UDP datagram goes to a host" };
  const options = hostFor(address), config = configOf(options);
  if (engine.run(config, "").code) return { fault: `${dotted(address)} isn't the address of a host` };
  const ours = withTicks(packets.filter(it => isFor(address, it.packet))), taken = ours.slice(0, MOST_RECORDS);
  const ports = new BoundPorts(taken), opened = linesOfPorts(ports.all, ports.first);
  const settings = ["addr", "bcast", "mbufs", "clusters"].map(name => `--${name} ${options[name]}`).join(" ");
  const planned = taken.map(it => ({ ...it, binds: ports.linesFor(it.packet) }));
  const { fault, records, isUnfinished } = playRecords(engine, config, planned, ports);
  if (fault) return { fault };
  const end = isUnfinished ? ["# The capture ends, and these datagrams are unfinished.", "show unfinished"] : [];
  const lines = [noteOfHost(address, options), settings, ...opened, ...records.flatMap(linesOfRecord), ...end];
  return { text: [...lines, ""].join("\n"), address: dotted(address), place: ports.first.length + 1,
    counts: { all: all.length, ip: packets.length, ours: ours.length, taken: taken.length } };
}

const noteOfHost = (address, { addr }) => (address === LOOPBACK
  ? `# Most datagrams go to 127.0.0.1, which every host has. The address of this one is ${addr}.`
  : "# The host that most datagrams go to.");

// The lines that bind ports, with a note on each.
const linesOfPorts = (ports, lines) =>
  ports.flatMap((port, i) => [`# A socket for port ${port}.`, ...lines.slice(2 * i, 2 * i + 2)]);

// Plays the packets of a capture once, and returns how many unfinished datagrams expired before each record, which
// sockets then had a datagram to read, and whether an unfinished datagram is left at the end.
function playRecords(engine, config, planned, { first, reads }) {
  const asked = planned.flatMap(({ played, binds, packet }) =>
    [...Array(played).fill("tick"), "stat", ...binds, `rx ${hexOf(packet.bytes)}`, ...reads]);
  const { code, replies } = engine.run(config, [...first, ...asked, "mbstat", ""].join("\n"));
  if (code) return { fault: FAULTS[code] };
  let at = first.length, timedOut = 0;
  const records = planned.map(({ played, binds, packet, ...it }) => {
    const { "ip.fragtimeout": now = 0 } = countersIn(replies[at + played]), expired = now - timedOut;
    const own = at + played + 1 + binds.length + 1;
    [at, timedOut] = [own + reads.length, now];
    const delivered = reads.filter((_, i) => replies[own + i].startsWith("from "));
    return { ...it, packet, played, binds, expired, delivered };
  });
  return { records, isUnfinished: usageIn(replies[at]).used > 0 };
}

// The lines of each record: ticks, sockets, its packet, and a read of the delivered datagram. Ticks are before the
// packet, or on a line of their own if an unfinished datagram expires.
function linesOfRecord(it) {
  const { packet, played, binds, expired, delivered } = it;
  const waits = expired ? [noteOfExpired(it), `tick ${played}`] : [];
  const time = expired || !played ? "" : `+${played / 2}s `;
  const bound = binds.length ? [`# ${MOST_PORTS} ports are bound, so one is closed for this one.`, ...binds] : [];
  const read = delivered.flatMap(line => ["# The datagram is read, so that its buffers are free again.", line]);
  return [...waits, ...bound, noteOfRecord(it), `${time}rx ${hexOf(packet.bytes)}`, ...read];
}

const pauseOf = ({ ticks }) => `${(ticks / 2).toLocaleString("en")} s`;
const cutPause = ({ ticks, played }) => (ticks > played ? `; the script plays ${played} ticks of them` : "");

function noteOfExpired(it) {
  const what = `${plural(it.expired, "unfinished datagram")} ${it.expired === 1 ? "expires" : "expire"}`;
  return `# ${pauseOf(it)} pass before record ${it.number}${cutPause(it)}. Fragments are kept for 30 s: ${what}.`;
}

function noteOfRecord({ packet, captured, whole, number, since, expired, ...it }) {
  const pause = cutPause(it) && !expired ? ` ${pauseOf(it)} have passed${cutPause(it)}.` : "";
  const cut = whole > captured ? ` The capture kept ${captured} of its ${whole} bytes (snap length).` : "";
  const left = packet.isLeftToCard
    ? " Its UDP checksum covers only the pseudo header; the sender's card adds the rest (checksum offload)." : "";
  return `# Record ${number}, ${secondsOf(since)} s.${pause}${cut}${left}`;
}
