"use strict";
// The right column for a script of several hosts: the wire, the hosts side by side, and the packets.

// The fate of a packet that left the wire: its mark, and its text.
function fateOf({ fate, to, place, cause, packet }, hosts, step) {
  if (fate === "dropped") return ["no", "This line drops it."];
  if (fate === "unheard") return ["no", "No other host on the wire has this address."];
  if (fate === "lost") return ["no", "It's lost on the wire."];
  if (fate === "no room") return ["no", "It's lost: the wire is full."];
  if (place === null) return heardOf(packet, to, hosts, step);
  const own = hosts.get(to).steps[place], end = own.drops.find(it => ENDS.has(it.name));
  if (cause) return ["no", `${to} drops it${end ? `, counted in ${end.name}` : ""}: ${cause}.`];
  if (has(own, "ip.reassembled")) return ["yes", `${to} has all fragments now: the datagram is whole.`];
  if (own.packet.isFragment) return ["wait", `${to} keeps it: the datagram isn't whole yet.`];
  return ["yes", `${to} accepts it.`];
}

// How many packets of a step are shown in words, and how many are drawn.
const SHOWN = { told: 12, drawn: 2 };

function movedView(step, hosts) {
  const tell = it => {
    const [kind, told] = fateOf(it, hosts, step);
    return h("li", { class: `verdict ${kind}` }, h("b", {}, it.to ? `${it.from} ⟶ ${it.to}` : `${it.from} ⟶`), " ",
      it.packet.tells, ". ", told);
  };
  const more = step.moved.length - SHOWN.told;
  return h("ul", { class: "moves", "aria-label": "packets that left the wire" },
    step.moved.slice(0, SHOWN.told).map(tell), more > 0 && h("li", { class: "faint" }, `and ${more} more`));
}

function flightView({ flight }) {
  const tell = ({ from, packet, wait }, i) =>
    h("li", {}, h("span", { class: "badge" }, String(i)), " ", h("b", {}, `${from} ⟶`), " ", packet.tells,
      wait > 0 && h("span", { class: "faint" }, `, due after ${wait} more`));
  const more = flight.length - SHOWN.told;
  return flight.length > 0 && [h("h4", {}, "On the wire"),
    h("ol", { class: "flight", "aria-label": "packets on the wire, by their places" },
      flight.slice(0, SHOWN.told).map(tell), more > 0 && h("li", { class: "faint" }, `and ${more} more`))];
}

// The wire with a box for each host, and its random faults.
function segmentView({ joined, chances }) {
  if (!joined.length) return h("p", { class: "faint" }, "No wire joins the hosts yet.");
  const box = host => h("li", {}, h("b", {}, host.name), h("small", {}, host.options.addr));
  return [h("ol", { class: chances.length ? "segment cut" : "segment", "aria-label": "the hosts on the wire" },
    joined.map(box)), chances.length > 0 && h("p", { class: "cross" }, `By chance: ${chances.join("; ")}.`)];
}

// Lines that are inserted after this one.
function putButtons({ joined, chances }) {
  const button = (line, name) =>
    h("button", { type: "button", id: `put-${line.split(" ")[0]}`, onclick() {
      putLine(line, this.id);
    } }, name);
  return joined.length > 0 && h("div", { class: "puts", role: "group", "aria-label": "insert a line after this one" },
    button("carry", "Carry"), button("tick", "Tick"), chances.some(it => it.startsWith("loss"))
      ? button("loss 0%", "Lose none") : button("loss 100%", "Lose all"));
}

const wireOf = (step, hosts) => h("section", { class: "panel wire" },
  h("div", { class: "head-of" }, h("h3", {}, "The wire after this line"), putButtons(step.wire)),
  segmentView(step.wire), step.moved.length > 0 && movedView(step, hosts), flightView(step.wire));

// The state of a host before the step and after it.
const heldAround = (page, step, host) =>
  [step.was.get(host.name) || 0, step.now.get(host.name)].map(n => page.heldOf(host, n));

function hostView(page, step, host) {
  const n = step.now.get(host.name), { pool, counters, mac } = stateOf(step, host.name, page.hosts);
  const changed = step.changed.filter(it => it.host === host.name), [before, now] = heldAround(page, step, host);
  const title = [`host ${host.name} `, h("span", { class: "faint" }, [host.options.addr, mac].filter(Boolean)
    .join(", "))];
  const isChanged = n > (step.was.get(host.name) || 0);
  if (!isFollowed(step, host)) {
    return h("div", { class: "column" }, neighboursView(step, host), panel(title,
      poolBar("mbufs", pool.mbufs, []), h("p", { class: "faint" },
        "Its buffers aren't drawn: a line moved more packets than the page follows.")),
    countersView({ counters, changed }, `Counters of ${host.name}`));
  }
  const memory = isChanged && memoryView(before.state, now.state, `The mbufs of ${host.name}`);
  return h("div", { class: "column" }, neighboursView(step, host), memory, machineView({ pool }, before, now, title),
    countersView({ counters, changed }, `Counters of ${host.name}`));
}

// The packets of a step as RFC 791 draws them: those that arrived, were sent or passed the wire, at most two.
function packetsOf(page, step, hosts) {
  if (step.host) {
    if (step.frame) return frameOfLine(step);
    const [before, now] = heldAround(page, step, hosts.get(step.host));
    return step.of ? packetsOfLine(step.of, before, now) : [];
  }
  if (step.wire.joined.some(it => it.isEther)) return framesOf(step, hosts);
  const checks = it => it.fate === "delivered"
    && panel(`The checks at ${it.to}, in order`, checksOf(hosts.get(it.to).steps[it.place]));
  return step.moved.slice(0, SHOWN.drawn).map(it => h("div", { class: "column" }, checks(it),
    panel(null, packetView(it.packet, it.to ? `${it.from} ⟶ ${it.to}` : `From ${it.from}`))));
}

function wireVerdicts(page, step, hosts) {
  if (step.kind === "bad") return [faultVerdict(step)];
  if (step.host) return step.of ? verdictsOf(step, ...heldAround(page, step, hosts.get(step.host))) : [];
  if (step.verb === "carry" && !step.moved.length) return [verdict("wait", "Nothing moved.")];
  const delivered = [...step.now.keys()].map(name => {
    const grown = grownIn(...heldAround(page, step, hosts.get(name))).map(it => `socket ${it.fd}`);
    return grown.length > 0
      && verdict("yes", `Delivered: it waits in the receive queue of ${grown.join(" and ")} of ${name}.`);
  });
  return [...waitsOf(step), ...delivered];
}

function wireView(page, step) {
  const all = [...step.now.keys()].map(name => page.hosts.get(name)), packets = packetsOf(page, step, page.hosts);
  return [leadOf(step, page.noteOf(step), wireVerdicts(page, step, page.hosts)), wireOf(step, page.hosts),
    all.length > 0 && h("div", { class: "hosts" }, all.map(host => hostView(page, step, host))),
    packets.length > 0 && h("div", { class: "packets" }, packets)];
}
