"use strict";
// Drawings: the elements of a page, packets as RFC 791 draws them, the pool, and chains as volume 2 draws them.

// An element with attributes and children. Empty children are skipped.
function h(tag, attributes = {}, ...children) {
  const it = document.createElement(tag);
  for (const [name, value] of Object.entries(attributes)) {
    if (name.startsWith("on")) it.addEventListener(name.slice(2), value);
    else if (value === true) it.setAttribute(name, "");
    else if (value !== null && value !== undefined && value !== false) it.setAttribute(name, value);
  }
  it.append(...children.flat(9).filter(child => child !== null && child !== undefined && child !== false));
  return it;
}

// The same for a drawing.
function svg(tag, attributes = {}, ...children) {
  const it = document.createElementNS("http://www.w3.org/2000/svg", tag);
  for (const [name, value] of Object.entries(attributes)) it.setAttribute(name, value);
  it.append(...children.flat(9));
  return it;
}

// ---- a packet

function cellOf(field) {
  const says = field.right ? ` ✗ right: ${field.right}` : " ✗ wrong";
  const marks = field.isWrong ? [h("b", { class: "cross" }, says)] : field.isRight
    ? [h("b", { class: "tick" }, " ✓")] : [];
  const shape = `cell kind-${field.kind} bits-${field.bits}${field.isWrong ? " wrong" : ""}`;
  return h("li", { class: shape, "data-at": field.at },
    h("span", { class: "cell-name" }, field.name), h("span", { class: "cell-value" }, field.value, marks));
}

// The bytes, 16 in a row or 8 on a phone, each with its field if the fields are given.
function dumpOf(bytes, fields) {
  const most = bytes.length <= 128 ? 128 : 96, cells = [];
  bytes.subarray(0, most).forEach((byte, at) => {
    if (at % 8 === 0) cells.push(h("span", { class: at % 16 ? "at half" : "at" }, String(at)));
    cells.push(fields ? byteOf(byte, fields.find(it => at >= it.at && at < it.at + it.size))
      : h("span", { class: "byte kind-other" }, hexOf([byte])));
  });
  const rest = bytes.length > most && h("span", { class: "rest" }, `and ${plural(bytes.length - most, "more byte")}`);
  return h("div",
    { class: "dump", role: "img", "aria-label": `its first bytes: ${hexOf(bytes.subarray(0, 64))}` }, cells, rest);
}

const byteOf = (byte, { name, value, kind, at }) =>
  h("span", { class: `byte kind-${kind}`, title: `${name}${value && `: ${value}`}`, "data-of": at }, hexOf([byte]));

// The header as RFC 791 draws it, 32 bits in a row, and the bytes below it. The field under the pointer is highlighted
// in both.
function packetView(packet, title) {
  const header = packet.isShort
    || scroller("the header, 32 bits in a row", h("ul", { class: "rfc" }, packet.fields.map(cellOf)));
  const it = h("div", { class: "packet" },
    h("h3", {}, title, " ", h("span", { class: "faint" }, plural(packet.length, "byte"))),
    header === true ? null : header, scroller("the bytes of the packet", dumpOf(packet.bytes, packet.fields)));
  it.addEventListener("mouseover", event => {
    const found = event.target.closest("[data-at], [data-of]");
    it.querySelectorAll(".lit").forEach(lit => lit.classList.remove("lit"));
    if (!found) return;
    const place = found.dataset.at || found.dataset.of;
    it.querySelectorAll(`[data-at="${place}"], [data-of="${place}"]`).forEach(lit => lit.classList.add("lit"));
  });
  return it;
}

// An element that may be wider than the window has its own scroll bar, which the keyboard can use too.
const scroller = (name, ...children) =>
  h("div", { class: "scroller", tabindex: 0, role: "group", "aria-label": name }, children);

// ---- the pool

// A bar of buffers by owner: a cell for each if there are few.
function poolBar(name, total, owners) {
  const used = owners.reduce((n, owner) => n + owner.count, 0),
    all = [...owners, { name: "free", kind: "free", count: total - used }];
  const shown = all.filter(owner => owner.count > 0);
  const isCells = total <= 64;
  const parts = isCells
    ? shown.flatMap(owner => Array.from({ length: owner.count }, () => h("i", { class: `of-${owner.kind}` })))
    : shown.map(owner => h("i", { class: `of-${owner.kind}`, style: `flex: ${owner.count} 0 3px` }));
  const label = `${name}: ${shown.map(owner => `${owner.count} ${owner.name}`).join(", ")}`;
  return h("div", { class: "pool" },
    h("div", {}, h("b", {}, name), " ",
      h("span", { class: "faint" }, `${(total - used).toLocaleString("en")} of ${total.toLocaleString("en")} free`)),
    h("div", { class: isCells ? "bar cells" : "bar", role: "img", "aria-label": label }, parts));
}

// The curve of mbufs in use, line by line, with the selected line.
function curve(steps, here, choose, known) {
  const seen = steps.slice(0, known), width = 300, height = 34;
  const most = Math.max(1, ...seen.map(step => step.pool.used));
  const x = i => (i * width) / Math.max(1, steps.length - 1),
    y = step => height - 2 - ((height - 5) * step.pool.used) / most;
  const line = seen.map((step, i) => `L${x(i).toFixed(1)} ${y(step).toFixed(1)}`).join("");
  const now = here < known ? `, now ${steps[here].pool.used}` : "";
  const label = `mbufs in use after each line: at most ${most}${now}`;
  const picture = svg("svg",
    { viewBox: `0 0 ${width} ${height}`, preserveAspectRatio: "none", role: "img", "aria-label": label },
    svg("path", { d: `M0 ${height}${line}L${x(known - 1).toFixed(1)} ${height}z`, class: "area" }),
      svg("path", { d: `M${x(here)} 0V${height}`, class: "here" }));
  picture.addEventListener("click", event => {
    const box = picture.getBoundingClientRect();
    choose(Math.round(((event.clientX - box.left) / box.width) * (steps.length - 1)));
  });
  return [h("span", { class: "faint" }, `mbufs in use, at most ${most.toLocaleString("en")}`), picture];
}
