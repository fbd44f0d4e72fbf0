"use strict";
// The packets that a script of yours dropped, a capture for example: how many for each cause, and buttons that lead to
// them.

// Whether a datagram was dropped because its checksum has only the sum of the pseudo header. The sender's network card
// adds the rest, so this isn't a fault on the wire.
const isLeftToCard = ({ packet, drops }) =>
  Boolean(packet && packet.isLeftToCard) && drops.some(it => it.name === "udp.badsum");

// Whether a packet was dropped because the capture kept only a part of it, as the note of its record says.
const isCut = step => step.drops.some(it => it.name === "ip.tooshort" || it.name === "ip.toosmall")
  && (page.noteOf(step) || "").includes("(snap length)");

// Why a drop is no fault of the packet: its cause in the list, its heading, what follows, and its rule.
const CARD = { cause: "checksum left to the card", head: "Left to the card",
  says: ": the UDP checksum has only the sum of the pseudo header, so the stack drops the datagram (",
  rule: "A network card fills in this checksum when it sends the datagram. This capture was taken before "
  + "that, at the sender, so it isn't a fault of the network." };
const CUT = { cause: "cut by the capture", head: "Cut by the capture",
  says: ": its other bytes are missing, so the stack drops it (",
  rule: "The sender sent all of it. The capture kept only the first bytes of each packet (the snap length), so this "
  + "isn't a fault of the network." };
const apartOf = step => (isLeftToCard(step) ? CARD : isCut(step) ? CUT : null);
const APART = [CARD.cause, CUT.cause];

// The causes of drops in a step, each with how many packets were dropped for it.
const causesIn = step => (apartOf(step) ? [[apartOf(step).cause, 1]]
  : step.drops.map(it => [causeIn(step, it.name), it.by]));

// For each cause the number of packets, and the steps. Those that are no fault of the packet are the last.
function dropsIn(steps) {
  const all = new Map();
  steps.forEach((step, i) => causesIn(step).forEach(([cause, by]) => {
    const { count, places } = all.get(cause) || { count: 0, places: [] };
    all.set(cause, { count: count + by, places: [...places, i] });
  }));
  const own = ([cause]) => (APART.includes(cause) ? 1 : 0);
  return new Map([...all].sort((a, b) => own(a) - own(b) || b[1].count - a[1].count));
}

// The next of these steps after the selected one, or the first.
const nextOf = places => stepTo(places.find(i => i > page.at) ?? places[0]);

// Lessons and exercises ask about drops, so there it isn't shown.
function showDrops() {
  const all = page.mine ? dropsIn(page.steps) : new Map(), causes = [...all].filter(([it]) => !APART.includes(it));
  const places = [...new Set(causes.flatMap(([, it]) => it.places))].sort((a, b) => a - b);
  const button = ([cause, it]) => h("li", {}, h("button", { type: "button", onclick: () => nextOf(it.places),
    class: APART.includes(cause) ? "cause card" : "cause" }, h("b", {}, it.count.toLocaleString("en")), ` ${cause}`));
  byId("drops").hidden = !all.size;
  const next = h("button", { type: "button", id: "next-drop", onclick: () => nextOf(places) }, "Next drop");
  byId("drops").replaceChildren(places.length > 0 ? next : "",
    h("ul", { "aria-label": "packets by the cause that they were dropped for" }, [...all].map(button)));
}
