"use strict";
// The proved program as a WebAssembly module. A run is a function of the whole script, and the module keeps no state
// between runs.

// The meanings of the outcomes, by number (crates/page).
const FAULTS = [
  "",
  "mbufs must be 1 to 65,535, and clusters 0 to 4,096",
  "the MTU must be 68 to 4,352, and both addresses those of hosts, and different",
  "no memory",
  "too many lines: at most 10,000,000, each of at most 1,048,576 bytes",
  "read failed",
  "write failed: there is no memory for the replies",
];

// The numbers of `struct page_header`, in their order (crates/page).
const HEADER = ["parts", "version", "words", "service", "total", "id", "flags", "offset", "ttl", "protocol", "sum",
  "rightSum", "source", "destination", "sourcePort", "destinationPort", "udpLength", "udpSum", "rightUdpSum",
  "pseudoSum"];

class Engine {
  constructor(module) {
    this.module = module;
    this.room = 1 << 16;
    this.start();
  }

  static async load(bytes) {
    const engine = new Engine(await WebAssembly.compile(bytes));
    PROGRAM.engine = engine;
    askMeanings(engine);
    return engine;
  }

  start() {
    this.calls = new WebAssembly.Instance(this.module, {}).exports;
  }

  take(size) {
    const at = this.calls.room(BigInt(Math.max(size, 1)));
    if (at === 0n) throw new Error(FAULTS[3]);
    return at;
  }

  bytes(at, size) {
    return new Uint8Array(this.calls.memory.buffer, Number(at), size);
  }

  // Puts bytes into the module's memory while `use` runs.
  lend(bytes, use) {
    const at = this.take(bytes.length);
    this.bytes(at, bytes.length).set(bytes);
    const answer = use(at);
    this.calls.give_back(at);
    return answer;
  }

  // Calls the export with a script, or with a file, and a second time with a larger buffer if its output didn't fit.
  serve(call, settings, script) {
    const text = typeof script === "string" ? new TextEncoder().encode(script) : script;
    try {
      for (;;) {
        const answer = this.try(call, settings, text);
        if (answer.bytes) return answer;
        this.room = answer.length;
      }
    } catch (fault) {
      // after a trap the memory is in an unknown state
      this.start();
      throw fault;
    }
  }

  try(call, settings, text) {
    const room = new Uint8Array(this.room);
    return this.lend(settings, about =>
      this.lend(text, from =>
        this.lend(room, to =>
          this.lend(new Uint8Array(8), length => {
            const code = call(about, from, BigInt(text.length), to, BigInt(room.length), length);
            const bytes = Number(new DataView(this.calls.memory.buffer).getBigUint64(Number(length), true));
            if (bytes > room.length) return { length: bytes };
            return { code, bytes: this.bytes(to, bytes).slice(), about: this.bytes(about, settings.length).slice() };
          }))));
  }

  // The outcome and the replies of a script of `bsdudp run`.
  run(config, script) {
    return withReplies(this.serve(this.calls.bsdudp_page_run, machineOf(config), script));
  }

  // The mbufs that a machine holds after a script of `bsdudp run`, in the form of figure.js.
  state(config, script) {
    const { code, bytes } = this.serve(this.calls.bsdudp_page_state, machineOf(config), script);
    if (code) throw new Error(FAULTS[code]);
    return stateIn(linesOf(textOf(bytes)).map(line => JSON.parse(line)));
  }

  // The outcome and the objects of a script of `bsdplay --json`, for one host.
  play(config, script) {
    return withObjects(this.serve(this.calls.bsdudp_page_play, machineOf(config), script));
  }

  // The same for several hosts, which the script sets up.
  hosts(script) {
    const call = (_, ...more) => this.calls.bsdudp_page_hosts(...more);
    return withObjects(this.serve(call, new Uint8Array(0), script));
  }

  // Returns the capture of the packets that arrive and leave in a script of one host, in `bytes`.
  capture(config, script) {
    return this.serve(this.calls.bsdudp_page_capture, machineOf(config), script);
  }

  // The marks of a hand-in compared with a key, counted as in `bsdplay --grade`.
  marks(key, hand) {
    const [wanted, given] = [key, hand].map(text => new TextEncoder().encode(text));
    return this.lend(wanted, from =>
      this.lend(given, of =>
        this.lend(new Uint8Array(32), to => {
          const code = this.calls.bsdudp_page_marks(from, BigInt(wanted.length), of, BigInt(given.length), to);
          if (code) throw new Error(FAULTS[code]);
          const view = new DataView(this.calls.memory.buffer, Number(to), 32);
          const [right, wrong, missing, first] = [0, 8, 16, 24].map(at => Number(view.getBigUint64(at, true)));
          return { right, wrong, missing, first };
        })));
  }

  // The records of a capture, and what is wrong with the file, or an empty text.
  records(file) {
    const call = (about, ...more) => this.calls.bsdudp_page_records(...more, about);
    const { code, bytes, about } = this.serve(call, new Uint8Array(16), file);
    if (code) throw new Error(FAULTS[code]);
    return recordsIn(bytes, Number(new DataView(about.buffer).getBigUint64(8, true)));
  }

  // The values in the headers of a packet, by the names in HEADER.
  header(packet) {
    return this.lend(packet, from =>
      this.lend(new Uint8Array(4 * HEADER.length), to => {
        const code = this.calls.bsdudp_page_header(from, BigInt(packet.length), to);
        if (code) throw new Error(FAULTS[code]);
        const view = new DataView(this.calls.memory.buffer, Number(to), 4 * HEADER.length);
        return Object.fromEntries(HEADER.map((name, i) => [name, view.getUint32(4 * i, true)]));
      }));
  }

  // The outcome and the replies of a script of `bsdudp chain`.
  chain(config, script) {
    return withReplies(this.serve(this.calls.bsdudp_page_chain, poolOf(config), script));
  }

  // Returns the mbufs of one slot's chain after a script of `bsdudp chain`, in `replies`, a line for each.
  // See crates/page.
  draw(config, slot, script) {
    const call = (pool, ...more) => this.calls.bsdudp_page_draw(pool, slot, ...more);
    return withReplies(this.serve(call, poolOf(config), script));
  }
}

const textOf = bytes => new TextDecoder().decode(bytes);
const withReplies = ({ code, bytes }) => ({ code, replies: linesOf(textOf(bytes)) });

// The objects of JSON, one on each line. Each character of their texts is a byte (docs/scripts.md).
function withObjects({ code, bytes }) {
  const decoded = value => (typeof value === "string"
    ? textOf(Uint8Array.from(value, letter => letter.charCodeAt(0))) : value);
  return { code, objects: linesOf(textOf(bytes)).map(line => JSON.parse(line, (_, value) => decoded(value))) };
}

// A state from its objects: each holder of mbufs, followed by its mbufs, and then the clusters. All mbufs have one
// type.
function stateIn(objects) {
  const state = { sockets: [], output: null, unfinished: [], clusters: {}, mbufs: [] };
  for (const { socket, output, unfinished, cluster, mbuf, ...it } of objects) {
    if (mbuf !== undefined) state.mbufs.push({ n: mbuf, type: MT_DATA, ...it, cluster });
    else if (socket !== undefined) state.sockets.push({ fd: socket, ...it });
    else if (output !== undefined) state.output = { len: output, ...it };
    else if (unfinished !== undefined) state.unfinished.push({ mbuf: unfinished, ...it, source: dotted(it.source) });
    else state.clusters[cluster] = it.references;
  }
  return state;
}

// The type of an mbuf that holds data (volume 2, figure 2.10).
const MT_DATA = 1;

// The settings of a machine in the module's form.
function machineOf({ addr, bcast, mbufs, clusters, mtu, id }) {
  const settings = new DataView(new ArrayBuffer(20));
  [addr, bcast, mbufs, clusters].forEach((n, i) => settings.setUint32(4 * i, n, true));
  settings.setUint16(16, mtu, true);
  settings.setUint16(18, id, true);
  return new Uint8Array(settings.buffer);
}

// The sizes of a pool in the module's form.
function poolOf({ mbufs, clusters }) {
  const sizes = new DataView(new ArrayBuffer(8));
  [mbufs, clusters].forEach((n, i) => sizes.setUint32(4 * i, n, true));
  return new Uint8Array(sizes.buffer);
}

// The lines of a text; the text after the last line feed is one too, if it isn't empty.
function linesOf(text) {
  const lines = text.split("\n");
  if (lines[lines.length - 1] === "") lines.pop();
  return lines;
}

// ---- the options of the command line

const numberIn = (text, most) => (/^(0|[1-9]\d{0,9})$/.test(text) && +text <= most ? +text : null);

// The machine that options configure, or `wrong`, the name of the first option with an invalid value.
function configOf(options) {
  const config = { addr: undotted(options.addr), bcast: undotted(options.bcast) };
  for (const name in MOST) config[name] = numberIn(options[name], MOST[name]);
  const wrong = Object.keys(config).find(name => config[name] === null);
  return wrong ? { wrong } : config;
}

// The options with the value that words such as --mtu 68 or --mtu=68 set.
function settingsIn(words) {
  const options = {}, all = words.flatMap(word => word.split("="));
  for (let i = 0; i + 1 < all.length; i += 2) options[all[i].replace(/^--/, "")] = all[i + 1];
  return options;
}
const optionsOf = words => ({ ...DEFAULTS, ...settingsIn(words) });
