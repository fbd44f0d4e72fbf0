"use strict";
// The parts that are shown only for hosts on an Ethernet: their neighbours, and frames.

// What a link did with a frame that has no packet. For an ARP packet, whether it knows the sender now (RFC 826, "Packet
// Reception").
function heardOf({ arp }, to, hosts, { states, statesBefore }) {
  if (!arp) return ["wait", `${to} receives it.`];
  const known = all => (all.get(to) || { neighbours: [] }).neighbours
    .some(it => it.ip === dotted(arp.ip) && it.mac === arp.mac);
  const isAsked = arp.operation === 1 && arp.target === hosts.get(to).config.addr;
  const told = isAsked ? `${to} has this address` : `${to} receives it`;
  if (!known(states)) return ["wait", `${told}, and stores nothing.`];
  return ["yes", `${told}, and ${known(statesBefore) ? "knew" : "knows now"} where ${dotted(arp.ip)} is.`];
}

const waitSaid = ({ waiting }) => `${plural(waiting, "packet")} ${waiting === 1 ? "waits" : "wait"}`;

// The neighbours of a host on an Ethernet that are known or requested, and how many packets wait for each. Changes by
// the line are marked.
function neighboursView(step, { name }) {
  const { neighbours, address } = step.states.get(name) || {}, before = step.statesBefore.get(name) || {};
  if (!neighbours) return null;
  const isNew = it => !(before.neighbours || []).some(old =>
    ["ip", "mac", "tries", "waiting"].every(part => old[part] === it[part]));
  const about = it => (it.mac ? [h("code", {}, it.mac), h("small", {}, `${plural(it.ticks, "tick")} left`)]
    : [h("span", {}, "requested"), h("small", {}, `${it.tries} of ${plural(it.most, "request")} sent`),
      h("small", { class: it.waiting ? "badge" : null }, waitSaid(it))]);
  const tell = it => h("li", { class: `datagram of-${it.mac ? "queue" : "unfinished"}${isNew(it) ? " new" : ""}` },
    h("b", {}, it.ip), about(it));
  const isClaimed = address === CLAIMED;
  return panel(`Neighbours of ${name}`, !isClaimed && h("p", { class: "faint" }, `${name} ${address}.`),
    neighbours.length ? h("ul", { class: "queue", "aria-label": `neighbours of ${name}` }, neighbours.map(tell))
      : h("p", { class: "faint" }, "None."));
}

// A frame that a line contains, with the checks of the packet that the stack received.
const frameOfLine = ({ frame, of }) => [of && panel("The checks, in order", checksOf(of)),
  panel(null, packetView(frame, "The frame that comes"))].filter(Boolean);

// The frames that were delivered, or otherwise those under way, at most two. A frame that arrived at several hosts is
// drawn once.
function framesOf(step, hosts) {
  const isWatched = ["carry", "collect", "show"].includes(step.verb);
  const all = step.moved.length ? step.moved : isWatched ? step.wire.flight : [];
  const isFirst = (it, i) => all.findIndex(one => hexOf(one.packet.bytes) === hexOf(it.packet.bytes)) === i;
  const checks = it => typeof it.place === "number"
    && panel(`The checks at ${it.to}, in order`, checksOf(hosts.get(it.to).steps[it.place]));
  return all.filter(isFirst).slice(0, SHOWN.drawn).map(it => h("div", { class: "column" }, checks(it),
    panel(null, packetView(it.packet, `A frame of ${it.from}`))));
}

// The packets that wait at a host for a hardware address, if they changed by the line.
function waitsOf({ states, statesBefore }) {
  const waiting = (all, name) => ((all.get(name) || {}).neighbours || []).filter(it => it.waiting);
  return [...states.keys()].flatMap(name => waiting(states, name)
    .filter(it => !waiting(statesBefore, name).some(old => old.ip === it.ip && old.waiting === it.waiting))
    .map(it => verdict("wait", `${waitSaid(it)} at ${name} until it knows the hardware address of ${it.ip}.`)));
}
