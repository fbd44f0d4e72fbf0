"use strict";
// Displays packets: IP (RFC 791) and UDP (RFC 768), in Ethernet frames also ARP (RFC 826). The program reads the
// headers of a packet and computes the right checksums (crates/page). This file draws the fields, and reads the headers
// of frames.

const hexOf = bytes => Array.from(bytes, byte => byte.toString(16).padStart(2, "0")).join("");
const bytesOf = hex => new Uint8Array((hex === "-" ? [] : hex.match(/../g) || []).map(digits => parseInt(digits, 16)));
const dotted = ip => [24, 16, 8, 0].map(shift => (ip >>> shift) & 255).join(".");
const hex16 = n => "0x" + n.toString(16).padStart(4, "0");
const plural = (n, one, many = one + "s") => `${n.toLocaleString("en")} ${n === 1 ? one : many}`;

// An address as a number, or null if the text isn't an address.
function addressIn(text) {
  const parts = text.split(".");
  const isOne = parts.length === 4 && parts.every(part => /^(0|[1-9]\d{0,2})$/.test(part) && +part < 256);
  return isOne ? parts.reduce((ip, part) => (ip * 256 + +part) >>> 0, 0) : null;
}

// The same, but an invalid text counts as 0.0.0.0, as in the program.
const undotted = text => addressIn(text) || 0;

// The program's values for the headers of a packet. Its module is loaded when the page starts.
const PROGRAM = {};
const headerOf = bytes => PROGRAM.engine.header(bytes);

// The text for a wrong checksum.
const sumsSaid = (came, right) => `${came} came, and ${right} would be right`;

// Bytes as ASCII, with a dot for unprintable ones.
function readable(bytes, most = 24) {
  const text = Array.from(bytes.subarray(0, most),
    byte => (byte >= 32 && byte < 127 ? String.fromCharCode(byte) : "·"));
  return text.join("") + (bytes.length > most ? "…" : "");
}

// Bytes with each run written once, with its length: "a×16 b×16 c×8". Other bytes are ASCII. Null if none of them
// repeats. `isCut`: more bytes follow, so the length of the last run isn't known.
const LEAST_RUN = 4;
function runsOf(bytes, most, isCut = false) {
  const runs = [];
  for (const byte of bytes) {
    const last = runs[runs.length - 1];
    if (last && last.byte === byte) last.count += 1;
    else runs.push({ byte, count: 1 });
  }
  if (isCut && runs.length < 2 || !runs.some(it => it.count >= LEAST_RUN)) return null;
  const texts = runs.map(({ byte, count }, i) => {
    const isLong = count >= LEAST_RUN, isPrinted = byte > 32 && byte < 127;
    const one = isPrinted ? String.fromCharCode(byte) : isLong ? `0x${hexOf([byte])}` : byte === 32 ? " " : "·";
    if (isCut && i === runs.length - 1) return ` ${one}…`;
    return isLong ? ` ${one}×${count.toLocaleString("en")} ` : one.repeat(count);
  });
  const text = texts.join("").replace(/ {2,}/g, " ").trim();
  return text.length > most ? text.slice(0, most - 1) + "…" : text;
}

// The fields of a packet in order. `kind` sets the colour, `bits` the width in the drawing.
class Packet {
  constructor(bytes) {
    this.bytes = bytes;
    this.length = bytes.length;
    this.fields = [];
    this.isShort = bytes.length < 20;
    if (this.isShort) {
      this.add("no whole header", 0, bytes.length, "data", "", 32);
      return;
    }
    this.says = headerOf(bytes);
    this.readHead();
    this.addHead();
    this.readData();
  }

  add(name, at, size, kind, value, bits, isWrong = false, isRight = false, right = null) {
    this.fields.push({ name, at, size, kind, value: String(value), bits, isWrong, isRight, right });
  }

  // The value of a wrong checksum, and the right value; or null.
  get wrongSum() {
    const field = this.fields.find(it => it.isWrong && it.right);
    return field ? sumsSaid(field.value, field.right) : null;
  }

  readHead() {
    const { words, total, id, flags, offset, protocol, source, destination } = this.says;
    Object.assign(this, { total, id, offset, protocol, source, destination });
    this.header = words * 4;
    this.flags = [["reserved", 4], ["DF", 2], ["MF", 1]].filter(([, bit]) => flags & bit).map(([name]) => name);
    this.hasMore = this.flags.includes("MF");
    this.isFragment = this.hasMore || offset > 0;
  }

  // A header of more than 5 words is refused before its checksum is checked.
  addHead() {
    const { version, words, service, ttl, sum, rightSum } = this.says, isTested = words === 5;
    const isRight = isTested && (sum === rightSum || (sum === 65535 && rightSum === 0));
    this.add("version", 0, 1, "size", version, 4, version !== 4);
    this.add("IHL", 0, 1, "size", words, 4, words !== 5);
    this.add("type of service", 1, 1, "other", service, 8);
    this.add("total length", 2, 2, "size", this.total, 16, this.total < 20 || this.total > this.length);
    this.add("identification", 4, 2, "fragment", this.id, 16);
    this.add("flags", 6, 2, "fragment", this.flags.join(" ") || "–", 3);
    this.add("fragment offset", 6, 2, "fragment", this.offset ? `${this.offset} (${this.offset / 8} × 8)` : 0, 13);
    this.add("time to live", 8, 1, "other", ttl, 8);
    this.add("protocol", 9, 1, "other", this.protocol === 17 ? "17 UDP" : this.protocol, 8, this.protocol !== 17);
    this.add("header checksum", 10, 2, "sum", hex16(sum), 16, isTested && !isRight, isRight, hex16(rightSum));
    this.add("source address", 12, 4, "source", dotted(this.source), 32);
    this.add("destination address", 16, 4, "destination", dotted(this.destination), 32);
  }

  readData() {
    let at = 20;
    const end = Math.min(this.length, Math.max(this.total, 20));
    if (this.header > 20 && this.header <= this.length) {
      this.add("options", 20, this.header - 20, "other", "", 32, true);
      at = this.header;
    }
    this.carried = this.bytes.subarray(at, end);
    const isUdp = this.protocol === 17 && this.offset === 0 && at === 20 && this.carried.length >= 8;
    const to = isUdp ? this.readUdp(at, end) : end;
    this.data = this.bytes.subarray(isUdp ? at + 8 : at, to);
    if (isUdp) at += 8;
    if (this.data.length) this.add(this.dataName(isUdp), at, this.data.length, "data", readable(this.data, 56), 32);
    const behind = at + this.data.length;
    if (behind < this.length) this.add("after the datagram", behind, this.length - behind, "behind", "", 32);
  }

  // Adds the UDP header, and returns the end of the data.
  readUdp(at, end) {
    const { sourcePort, destinationPort, udpLength: length, udpSum: sum, rightUdpSum, pseudoSum } = this.says;
    const fits = length >= 8 && length <= end - at, isTested = fits && !this.isFragment && sum !== 0;
    const isRight = isTested && sum === rightUdpSum, right = isTested && !isRight ? hex16(rightUdpSum) : null;
    Object.assign(this, { sourcePort, destinationPort, isLeftToCard: !this.isFragment && sum === pseudoSum });
    this.add("source port", at, 2, "source", this.sourcePort, 16);
    this.add("destination port", at + 2, 2, "destination", this.destinationPort, 16);
    this.add("UDP length", at + 4, 2, "size", length, 16, !this.isFragment && !fits);
    this.add("UDP checksum", at + 6, 2, "sum", sum === 0 ? "none" : hex16(sum), 16, isTested && !isRight, isRight,
      right);
    return this.isFragment || !fits ? end : at + length;
  }

  dataName(isUdp) {
    if (isUdp || !this.isFragment) return `data, ${plural(this.data.length, "byte")}`;
    return `bytes ${this.offset} to ${this.offset + this.data.length - 1} of the datagram`;
  }

  // A summary in one line: source, destination and contents.
  get tells() {
    if (this.isShort) return `${plural(this.length, "byte")}, no whole IP header`;
    const end = (ip, port) => dotted(ip) + (port === undefined ? "" : ":" + port);
    const who = `${end(this.source, this.sourcePort)} → ${end(this.destination, this.destinationPort)}`;
    if (!this.isFragment) {
      return `${who}, ${this.protocol === 17 ? plural(this.data.length, "byte") : `protocol ${this.protocol}`}`;
    }
    const runs = runsOf(this.data, 40), head = this.data.length < this.carried.length ? "UDP header, " : "";
    const bytes = `bytes ${this.offset} to ${this.offset + this.carried.length - 1}${runs ? ` (${head}${runs})` : ""}`;
    return `${who}, fragment of datagram ${this.id}: ${bytes}, ${this.hasMore ? "more follow" : "the last"}`;
  }
}

// ---- an Ethernet frame

const MAC_BROADCAST = "ff:ff:ff:ff:ff:ff";
const ETHER_HEADER = 14, ARP_BYTES = 28;
const TYPES = { 0x0800: "IPv4", 0x0806: "ARP" };
const word16 = (bytes, at) => 256 * bytes[at] + bytes[at + 1];
const word32 = (bytes, at) => 65536 * word16(bytes, at) + word16(bytes, at + 2);
const macAt = (bytes, at) => Array.from(bytes.subarray(at, at + 6), byte => hexOf([byte])).join(":");
const macText = mac => (mac === MAC_BROADCAST ? "all" : mac);

// The fields of a frame (RFC 894) in order, then those of its IP packet or ARP packet (RFC 826). `arp` or `packet` has
// the bytes after its header, if it's one of these.
class Frame {
  constructor(bytes) {
    Object.assign(this, { bytes, length: bytes.length, fields: [], isShort: bytes.length < ETHER_HEADER });
    if (this.isShort) {
      this.add("no whole Ethernet header", 0, bytes.length, "data", "", 32);
      return;
    }
    this.destination = macAt(bytes, 0);
    this.source = macAt(bytes, 6);
    this.type = word16(bytes, 12);
    const name = TYPES[this.type];
    this.add("Ethernet destination", 0, 6, "destination", macText(this.destination), 32);
    this.add("Ethernet source", 6, 6, "source", this.source, 32);
    this.add("type", 12, 2, "other", `${hex16(this.type)}${name ? ` ${name}` : ""}`, 32);
    this.addBody(bytes.subarray(ETHER_HEADER));
  }

  add(name, at, size, kind, value, bits, isWrong = false) {
    this.fields.push({ name, at, size, kind, value: String(value), bits, isWrong, isRight: false, right: null });
  }

  addBody(body) {
    if (this.type === 0x0800) {
      this.packet = new Packet(body);
      this.fields.push(...this.packet.fields.map(it => ({ ...it, at: it.at + ETHER_HEADER })));
    } else if (this.type === 0x0806 && body.length >= ARP_BYTES) {
      this.readArp(body);
    } else if (body.length) {
      this.add("data", ETHER_HEADER, body.length, "data", plural(body.length, "byte"), 32);
    }
  }

  readArp(body) {
    const at = ETHER_HEADER, operation = word16(body, 6);
    this.arp = { operation, mac: macAt(body, 8), ip: word32(body, 14), target: word32(body, 24) };
    const said = { 1: "1 request", 2: "2 reply" }[operation];
    this.add("hardware type", at, 2, "other", word16(body, 0) === 1 ? "1 Ethernet" : word16(body, 0), 16,
      word16(body, 0) !== 1);
    this.add("protocol type", at + 2, 2, "other", hex16(word16(body, 2)), 16, word16(body, 2) !== 0x0800);
    this.add("hardware length", at + 4, 1, "size", body[4], 8, body[4] !== 6);
    this.add("protocol length", at + 5, 1, "size", body[5], 8, body[5] !== 4);
    this.add("operation", at + 6, 2, "fragment", said || operation, 16, !said);
    this.add("sender hardware address", at + 8, 6, "source", this.arp.mac, 32);
    this.add("sender address", at + 14, 4, "source", dotted(this.arp.ip), 32);
    this.add("target hardware address", at + 18, 6, "destination", macAt(body, 18), 32);
    this.add("target address", at + 24, 4, "destination", dotted(this.arp.target), 32);
    if (body.length > ARP_BYTES) {
      this.add("padding", at + ARP_BYTES, body.length - ARP_BYTES, "behind", "", 32);
    }
  }

  // A summary in one line: source, destination and contents.
  get tells() {
    if (this.isShort) return `${plural(this.length, "byte")}, no whole Ethernet header`;
    const who = `${this.source} → ${macText(this.destination)}`;
    if (this.packet) return `${who}: ${this.packet.tells}`;
    if (!this.arp) return `${who}: type ${hex16(this.type)}, ${plural(this.length - ETHER_HEADER, "byte")}`;
    const { operation, mac, ip, target } = this.arp;
    if (operation === 1) return `${who}: ARP, who has ${dotted(target)}? Tell ${dotted(ip)}`;
    return `${who}: ARP, ${operation === 2 ? `${dotted(ip)} is at ${mac}` : `operation ${operation}`}`;
  }
}

// ---- a packet made by hand

const put16 = (to, at, n) => to.set([(n >> 8) & 255, n & 255], at);

// The line with which a packet with one fault arrives: by name, or by its bytes if the fault has no name.
function packetLine(engine, { source, sourcePort, destination, destinationPort, id, text, fault }) {
  const data = text ? `"${text.replace(/["\\]/g, "\\$&")}"` : "-", ends = [`${source}:${sourcePort}`];
  const names = { "ip sum": " badsum", "udp sum": " badudp" };
  ends.push(`${destination}:${destinationPort}`);
  const line = `rx udp ${ends.join(" > ")} ${data} id ${id}${names[fault] || ""}`;
  if (!fault || names[fault]) return line;
  const bytes = packetsIn(engine, DEFAULT_CONFIG, line + "\n").get(1);
  if (fault === "version") bytes[0] = 0x65;
  if (fault === "protocol") bytes[9] = 6;
  put16(bytes, 10, headerOf(bytes).rightSum);
  return `rx ${hexOf(fault === "short" ? bytes.subarray(0, -1) : bytes)}`;
}
