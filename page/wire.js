"use strict";
// Scripts for several hosts on one wire. The program plays them. To show the mbufs of each host, the page plays a
// separate script for it: the host's lines, with a line `tx` for each packet that it sent, and a line `rx` for each
// packet that arrived according to the program. The result is compared with the host's counters after each line, and
// shown if it agrees. A host on an Ethernet sends frames: the packets of its script go to its link, in which a packet
// may wait for a hardware address.

// The most packets of an output queue.
const QUEUE_MOST = 50;
// The text of `show link` for a host on an Ethernet that sends.
const CLAIMED = "uses its address";

// A host on the wire: its settings, and the lines of its separate script so far.
class WireHost {
  constructor(name, words) {
    const at = words.findIndex(it => it.startsWith("--"));
    const options = { ...DEFAULTS, ...settingsIn(at < 0 ? [] : words.slice(at)) };
    const isEther = words[0] === "ether";
    Object.assign(this, { name, options, config: configOf(options), lines: [], isEther });
  }

  // A packet or a frame arrives. Returns the place of its line, or nothing if the stack receives no packet.
  hear(packet) {
    const own = packet instanceof Frame ? packet.packet : packet;
    return own ? this.lines.push(`rx ${hexOf(own.bytes) || "-"}`) - 1 : null;
  }
}

// ---- queries to the program

const CHANCE = /^(loss|reorder|delay) |^repeat .*[%./]/;
const HOST_LINE = /^([A-Za-z]\w*): ?(.*)$/;

// What happened to packets follows the line that moved them, each as an object with the line's number.
function partMoves(objects) {
  const moves = new Map(objects.map(it => [it.number, []]));
  for (const it of objects.filter(({ fate }) => fate)) moves.get(it.number).push(it);
  return { lines: objects.filter(({ fate }) => !fate), moves };
}

// The queries to a host after each line, with two more for a host on an Ethernet.
const ASKED = ["stat", "mbstat", "show neighbours", "show link"];
const askedOf = ({ isEther }) => ASKED.slice(0, isEther ? 4 : 2);

// The counters of the hosts after each line: the script is played again, with lines that query them.
function statesAfter(engine, objects) {
  const lines = [], places = [], hosts = [];
  for (const it of objects) {
    const [verb, name, ...words] = it.fault ? [] : timedOf(it.line).plain.split(" ");
    if (verb === "host") hosts.push(new WireHost(name, words));
    lines.push(it.fault ? "" : it.line);
    places.push(hosts.map(host => {
      const from = lines.length;
      lines.push(...askedOf(host).map(asked => `${host.name}: ${asked}`));
      return { host, from };
    }));
  }
  const { lines: told } = partMoves(engine.hosts(lines.map(line => line + "\n").join("")).objects);
  const at = new Map(told.map(it => [it.number - 1, it]));
  const stateIn = ({ host, from }) => [host.name, stateOfAnswers(...askedOf(host).map((_, i) => at.get(from + i)))];
  return places.map(all => new Map(all.map(stateIn)));
}

// A host's replies: its counters and its pool; on an Ethernet also its neighbours, the state of its claim to its own
// address, and its hardware address.
function stateOfAnswers(stat, usage, neighbours, link) {
  const state = { counters: countersIn(stat.reply), pool: usageIn(usage.reply) };
  if (!link) return state;
  const [mac] = link.below.trim().split(",");
  return { ...state, neighbours: linesOf(neighbours.below).map(neighbourIn), address: link.reply, mac };
}

// A neighbour, from the program's line: its hardware address, or the requests for it.
function neighbourIn(text) {
  const [, ip, mac, ticks] = /^ *(\S+) is at (\S+), (\d+) ticks? left/.exec(text) || [];
  if (mac) return { ip, mac, ticks: +ticks };
  const [, asked, ...counts] = /^ *(\S+) is unresolved, (\d+) of (\d+) requests sent, (\d+)/.exec(text) || [];
  const [tries, most, waiting] = counts.map(Number);
  return { ip: asked, mac: null, tries, most, waiting };
}

// ---- the wire

class WirePlay {
  constructor(engine, runs, frames) {
    Object.assign(this, { engine, runs, frames, hosts: new Map(), joined: [], flight: [], chances: [], isWhole: true });
  }

  // Plays a line, with the fates of its packets. The step has the number of lines in each host's script before it and
  // after it.
  play(it, i, moves, states) {
    const was = this.counts();
    this.moved = [];
    this.states = states;
    const { ticks, plain: line } = timedOf(it.line || ""), [, name, plain] = HOST_LINE.exec(line) || [];
    const frame = this.frames.get(it.number);
    if (ticks) this.act(`tick ${ticks}`);
    if (!it.fault && name) this.hosts.get(name).lines.push(...this.runs[i]);
    if (frame && [MAC_BROADCAST, states.get(name).mac].includes(frame.destination)) this.hosts.get(name).hear(frame);
    if (!it.fault && !name) this.act(line, moves);
    const wire = { joined: this.joined, flight: this.flight, chances: this.chances };
    return { host: it.fault ? null : name || null, plain, frame, moved: this.moved, wire, was, now: this.counts(),
      states, isWhole: this.isWhole };
  }

  counts() {
    return new Map([...this.hosts].map(([name, host]) => [name, host.lines.length]));
  }

  // A line of the wire itself that succeeded.
  act(line, moves = []) {
    const [verb, ...words] = line.split(" "), at = words.map(Number);
    if (verb === "host") this.hosts.set(words[0], new WireHost(words[0], words.slice(1)));
    if (verb === "wire") this.joined = [...this.hosts.values()];
    if (verb === "tick") this.hosts.forEach(host => host.lines.push(...Array(+(words[0] || 1)).fill("tick")));
    if (verb === "carry" || verb === "collect") this.giveToLinks();
    if (["carry", "collect", "deliver"].includes(verb)) this.carry(moves);
    if (CHANCE.test(line)) this.chance(line);
    else if (["drop", "repeat", "swap"].includes(verb)) this.byHand(verb, ...at);
  }

  // A new chance replaces the one before. A chance of 0 removes it.
  chance(line) {
    const [verb, much, ...whom] = line.split(" "), what = `${verb} ${whom.join(" ")}`.trim();
    const others = this.chances.filter(it => `${it.split(" ")[0]} ${it.split(" ").slice(2).join(" ")}`.trim() !== what);
    this.chances = /^0*[.]?0*%?$|^0\/|^0-0$/.test(much) ? others : [...others, line];
  }

  // All packets in the output queue of a host on an Ethernet go to its link, when the host uses its address.
  giveToLinks() {
    const isReady = host => host.isEther && this.states.get(host.name).address === CLAIMED;
    for (const host of [...this.hosts.values()].filter(isReady)) {
      const asked = [...host.lines, ...Array(QUEUE_MOST).fill("tx"), ""].join("\n");
      const replies = this.engine.run(host.config, asked).replies.slice(host.lines.length);
      host.lines.push(...replies.filter(it => it.startsWith("packet ")).map(() => "tx"));
    }
  }

  // The program's objects for packets: this many left, one was lost, arrived at a host, or is under way after the line.
  carry(moves) {
    const packetOf = ({ from, packet }) => {
      const bytes = bytesOf(packet);
      return this.hosts.get(from).isEther ? new Frame(bytes) : new Packet(bytes);
    };
    const all = moves.map(it => (it.packet ? { ...it, packet: packetOf(it) } : it));
    this.flight = all.filter(it => it.fate === "under way");
    for (const it of all.filter(({ fate }) => fate !== "under way")) this.move(it);
  }

  move({ from, to, packet, fate, cause, count = 1 }) {
    if (fate === "more") this.isWhole = false;
    const isGiven = GIVEN.includes(fate) && !this.hosts.get(from).isEther;
    if (isGiven) this.hosts.get(from).lines.push(...Array(count).fill("tx"));
    if (to) this.moved.push({ from, to, packet, fate: "delivered", cause, place: this.hosts.get(to).hear(packet) });
    else if (LEFT.includes(fate)) this.moved.push({ from, packet, fate });
  }

  // A line loses or repeats a packet, or exchanges two.
  byHand(verb, at, other) {
    const it = this.flight[at], flight = [...this.flight];
    if (!it) return;
    if (verb === "drop") this.moved.push({ ...flight.splice(at, 1)[0], fate: "dropped" });
    if (verb === "repeat") flight.push(it);
    if (verb === "swap") [flight[at], flight[other]] = [flight[other], it];
    this.flight = flight;
  }
}

// The fates of packets that a host sent, and of those that left the wire and reached no host.
const GIVEN = ["sent", "sent twice", "lost", "no room"], LEFT = ["lost", "no room", "unheard"];

// ---- the steps

// The objects, as if each line of a host were separate.
function aloneOf(objects) {
  const plainOf = it => (HOST_LINE.exec(timedOf(it.line).plain) || ["", "", "show "])[2];
  return objects.map(it => ({ ...it, line: it.fault ? "" : plainOf(it) }));
}

// The lines of the hosts in a script without their names, for the packets in it.
const aloneText = text => linesOf(text).map(line => {
  const [, plain] = /^\s*(?:\+\S+\s+)?\w+:\s*(rx .*)$/.exec(line) || [];
  return (plain || "") + "\n";
}).join("");

// The frames that lines contain, by the numbers of their lines.
function framesIn(engine, alone) {
  const all = alone.filter(it => it.line.startsWith("frame "));
  const digits = digitsOf(engine, all.map(it => it.line.slice("frame ".length)));
  return new Map(all.map(({ number }, i) => [number, new Frame(bytesOf(digits[i]))]));
}

function traceHosts(engine, text) {
  const { code, objects: told } = engine.hosts(text), { lines: objects, moves } = partMoves(told);
  const states = statesAfter(engine, objects), all = linesOf(text);
  const alone = aloneOf(objects), runs = runLines(engine, DEFAULT_CONFIG, aloneText(text), alone);
  const wire = new WirePlay(engine, runs, framesIn(engine, alone));
  const played = objects.map((it, i) => wire.play(it, i, moves.get(it.number), states[i]));
  for (const host of wire.hosts.values()) host.steps = traceStack(engine, host.config, host.lines).steps;
  const steps = objects.map((it, i) => hostStep(it, i, all[it.number - 1], played, wire.hosts));
  return { code, steps, hosts: wire.hosts };
}

// A host's state after a step, according to the program.
const stateOf = (step, name, hosts) =>
  (step && step.states.get(name)) || { pool: emptyPool(hosts.get(name).config), counters: {} };

// Whether a host's separate script agrees with the program, so that its bytes are known.
function isFollowed(step, host) {
  if (!step.isWhole) return false;
  const n = step.now.get(host.name), own = n ? host.steps[n - 1] : { counters: {}, pool: emptyPool(host.config) };
  const { counters, pool } = step.states.get(host.name) || {};
  return Boolean(pool && own) && JSON.stringify([counters, pool]) === JSON.stringify([own.counters, own.pool]);
}

function hostStep(it, i, text, played, hosts) {
  const step = { ...played[i], number: i + 1, line: it.line || partsOf(text).asked, ...answerOf(it),
    ...wantedOf(it, text) };
  const changed = changesOf(step, played[i - 1], hosts), drops = changed.filter(({ name }) => DROPS.has(name));
  step.statesBefore = i ? played[i - 1].states : new Map();
  const used = at => ({ used: at ? sumOf([...at.states.values()].map(one => one.pool), "used") : 0 });
  const common = { changed, drops, before: used(played[i - 1]), pool: used(step) };
  const { ticks, plain } = timedOf(step.line), bad = step.column !== undefined;
  const [verb, ...words] = (step.plain || plain).split(" ");
  if (bad) return { ...step, ...common, ...otherOf(step) };
  if (!step.host) {
    const lost = step.moved.filter(one => one.fate !== "delivered").length;
    const marks = lost ? [{ host: null, name: "lost on the wire", by: lost, isLost: true }] : [];
    const [kind, tells] = WIRE_TELLS[verb] ? WIRE_TELLS[verb](words) : ["call", words.join(" ")];
    const all = [...changed, ...marks], told = tells + whenOf(ticks);
    return { ...step, ...common, changed: all, kind, verb, tells: told, reply: it.reply };
  }
  const n = step.now.get(step.host), isRun = n > step.was.get(step.host) + ticks;
  const of = isRun ? hosts.get(step.host).steps[n - 1] : null;
  const { frame } = step, other = otherOf({ line: step.plain, isOk: step.isOk, reply: it.reply });
  const own = of || { ...other, packet: frame, drops: [], changed: [] };
  const alone = frame ? { ...own, verb, tells: frame.tells } : own;
  return { ...alone, reply: it.reply, ...step, ...common, of, verb: `${step.host}: ${alone.verb}`,
    tells: alone.tells + whenOf(ticks) };
}

// The counters that a step changed, each with its host.
function changesOf(step, before, hosts) {
  return [...step.states.keys()].flatMap(name => {
    const { counters } = stateOf(step, name, hosts), old = stateOf(before, name, hosts).counters;
    return Object.keys(counters).map(it => ({ host: name, name: it, by: counters[it] - (old[it] || 0) }))
      .filter(({ by }) => by !== 0);
  });
}

const numbered = word => `packet ${word} on the wire`;
const ofWhom = w => (w[1] === "from" ? ` from ${w[2]}` : "");
const WIRE_TELLS = {
  host: w => ["call", `${w[0]} with ${w.slice(1).join(" ") || "--addr 10.0.0.1"}`],
  wire: w => ["call", `joins ${w.join(", ")}`],
  carry: () => ["wire", "waiting packets go on the wire, and due ones arrive"],
  collect: () => ["wire", "waiting packets go on the wire"],
  deliver: () => ["wire", "due packets arrive"],
  tick: w => ["tick", w[0] > 1 ? `${w[0] / 2} s pass at all hosts` : "half a second passes at all hosts"],
  loss: w => ["call", `${w[0]} of the packets${ofWhom(w)} are lost`],
  repeat: w => (/[%./]/.test(w[0]) ? ["call", `${w[0]} of the packets${ofWhom(w)} are sent twice`]
    : ["wire", `${numbered(w[0])} is duplicated`]),
  drop: w => ["wire", `${numbered(w[0])} is lost`],
  swap: w => ["wire", `packets ${w[0]} and ${w[1]} on the wire change places`],
  show: () => ["ask", "packets on the wire"],
  summary: () => ["ask", "what each host sent and received"],
};
