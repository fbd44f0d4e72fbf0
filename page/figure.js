"use strict";
// Mbufs as TCP/IP Illustrated volume 2 draws them: so_rcv, if_snd and the reassembly list as trains of chains, or the
// chains of a script of chains. `MbufFigure.mount(host, { after, before, caption, all })` draws the state after a line,
// with what the line changed marked and the state before it at the side, and draws again if the space changes.
//
// A state has `mbufs`, each with its number, its fields and its first bytes, or with all that are `known`; `clusters`,
// with the reference count of each; and their holders: `sockets`, `output` and `unfinished`, or `chains`. Links are
// numbers of mbufs, and null is no link (`state` of engine.js, `chainState` of chains.js).
const MbufFigure = (() => {
  const MSIZE = 128, HEADER = 20, PKTHDR = 28, EXT = 32, MCLBYTES = 2048;
  const TYPES = { 1: "MT_DATA" };
  // If there are more packets than these, the first two and the last two are drawn.
  const SHOWN = 4;
  // At most this many sockets and queues that a line changed are drawn; others are named.
  const HOLDERS = 6;
  // Lengths in the drawing's unit, which is a pixel if the page's font size is 16. Chains are drawn in rows, or upright
  // if the page is narrow.
  const ROW = 17, TITLE = 18, LABEL = 20, BETWEEN = 26, OWNER = 160, BYTES = 122;
  const LYING = { mbuf: 198, off: 27, room: 104, gap: 44, gutter: 50, cluster: 154, left: 16, lane: 13, elbow: 12 };
  const UPRIGHT = { mbuf: 190, off: 24, room: 88, gap: 14, gutter: 36, cluster: 114, left: 28, lane: 16, elbow: 8 };
  let drawings = 0;

  const count = n => n.toLocaleString("en");
  const plural = (n, what) => `${count(n)} ${what}${n === 1 ? "" : "s"}`;
  const name = n => (n === null ? "NULL" : `mbuf ${n}`);
  const sum = numbers => numbers.reduce((all, n) => all + n, 0);
  const bytesIn = hex => (hex.match(/../g) || []).map(digits => parseInt(digits, 16));
  const u16 = (b, i) => 256 * b[i] + b[i + 1];

  function svg(tag, attributes, ...children) {
    const it = document.createElementNS("http://www.w3.org/2000/svg", tag);
    for (const [key, value] of Object.entries(attributes)) it.setAttribute(key, value);
    it.append(...children.flat(9).filter(Boolean));
    return it;
  }
  const text = (x, y, kind, said, anchor = "start") => svg("text", { x, y, class: kind, "text-anchor": anchor }, said);
  const rect = (x, y, width, height, kind, more) => svg("rect", { x, y, width, height, class: kind, ...more });

  // ---- the parts of a state

  // The mbufs from a first one on, following their links.
  function walk(at, first, link) {
    const all = new Set();
    for (let n = first; at.has(n) && !all.has(at.get(n)); n = at.get(n)[link]) all.add(at.get(n));
    return [...all];
  }

  // The fields of an mbuf: the offset, the name and the value of each.
  function rowsOf(it) {
    const flags = [it.cluster !== null && "M_EXT", it.pkthdr !== null && "M_PKTHDR"].filter(Boolean).join("|") || "0";
    return [[0, "m_next", name(it.next)], [4, "m_nextpkt", name(it.nextpkt)], [8, "m_len", count(it.len)],
      [12, "m_data", `byte ${count(it.data)}`], [16, "m_type", TYPES[it.type] || `${it.type}`], [18, "m_flags", flags],
      ...(it.pkthdr === null ? [] : [[20, "m_pkthdr.len", count(it.pkthdr)], [24, "m_pkthdr.rcvif", `${it.rcvif}`]]),
      ...(it.cluster === null ? [] : [[28, "m_ext.ext_buf", `cluster ${it.cluster}`]])];
  }

  // Some bytes as runs or as a text, or the first ones as digits.
  const WIDEST = 22;
  function readable(bytes, all) {
    const runs = runsOf(bytes, WIDEST, all > bytes.length);
    if (runs) return runs;
    const some = bytes.slice(0, 7), more = all > some.length ? " …" : "";
    if (some.every(byte => byte >= 32 && byte < 127)) return `“${String.fromCharCode(...some)}”${more}`;
    return some.map(byte => byte.toString(16).padStart(2, "0")).join(" ") + more;
  }

  // The parts of an mbuf's bytes in this kind of train: bytes of the stack ("mine"), and data.
  function partsOf(it, kind, isFirst) {
    const b = bytesIn(it.known || it.bytes), parts = [];
    const offset = kind === "if_snd" ? 8 * (u16(b, 6) & 8191) : it.rcvif >> 1;
    let used = 0;
    const put = (len, what, says) => {
      const said = plural(len, "byte") + (what && `: ${what}`), short = says.replace(/, /g, ",");
      parts.push({ len, at: it.data + used, is: what ? "mine" : "data", said, says: says.length < 24 ? says : short });
      used += len;
    };
    const isCut = kind === "if_snd" || kind === "ipq", id = u16(b, 4);
    if (isFirst && kind === "so_rcv") put(16, "sockaddr_in", `${b.slice(4, 8).join(".")}, port ${u16(b, 2)}`);
    if (isFirst && kind === "if_snd") put(20, "IP header", `id ${id}, offset ${offset}${b[6] & 32 ? ", MF" : ""}`);
    if (isFirst && isCut && offset === 0 && it.len >= used + 8)
      put(8, "UDP header", `port ${u16(b, used)} → ${u16(b, used + 2)}`);
    if (it.len > used) put(it.len - used, "", readable(b.slice(used), it.len - used));
    return parts;
  }

  const free = (len, at, is = "free") => ({ len, at, is, said: `${count(len)} ${is}` });
  const isFree = part => part.is === "free" || part.is === "unused";

  // Each part has one line, or two if its text is longer. The rest of the height is shared by their bytes.
  function heights(parts, high) {
    const two = parts.map(part => (part.says ? 31 : ROW)), low = sum(two) <= high ? two : parts.map(() => ROW);
    const left = Math.max(0, high - sum(low)), bytes = sum(parts.map(part => part.len));
    return parts.map((part, i) => low[i] * Math.min(1, high / sum(low)) + (left * part.len) / bytes);
  }

  // The holder of a train: the rows of its box, of which the last is the link.
  function holdersOf({ chains, sockets, output, unfinished }) {
    const holder = (title, kind, first, ...rows) => ({ title, kind, first, rows: rows.map(row => [0, ...row]) });
    if (chains) {
      return chains.map(it =>
        holder(`chain ${it.slot}`, "chain", it.first, ["bytes", count(it.len)], ["first", name(it.first)]));
    }
    return [...sockets.map(it => holder(`socket ${it.fd}: so_rcv`, "so_rcv", it.first, ["sb_cc", count(it.cc)],
      ["sb_hiwat", count(it.limit || 41600)], ["sb_mbcnt", count(it.mbcnt)],
      ["sb_mbmax", count(2 * (it.limit || 41600))], ["sb_mb", name(it.first)])),
      holder("if_snd", "if_snd", output.first, ["ifq_tail", name(output.last)], ["ifq_len", `${output.len}`],
        ["ifq_maxlen", "50"], ["ifq_head", name(output.first)]),
      ...unfinished.map(it => holder(`ipq ${it.id}, ${it.source}`, "ipq", it.first,
        ["ipq_ttl", plural(it.ticks, "tick")], ["its own", name(it.mbuf)], ["ipq_next", name(it.first)]))];
  }

  // All that a holder holds, as one text, which differs if the line changed something in it.
  function contentsOf(state, holder) {
    const at = new Map(state.mbufs.map(it => [it.n, it]));
    const chains = first => walk(at, first, "nextpkt").map(it => walk(at, it.n, "next"));
    const all = chains(holder.first);
    return JSON.stringify([holder, all, all.flat(4).map(it => it && state.clusters[it.cluster])]);
  }

  // The titles of the holders that are drawn: those that the line changed, otherwise those that hold something. And the
  // others, in words.
  function chosen(after, before, all) {
    const now = holdersOf(after), earlier = before ? holdersOf(before) : [];
    const old = new Map(earlier.map(it => [it.title, contentsOf(before, it)]));
    const changed = before ? now.filter(it => old.get(it.title) !== contentsOf(after, it)) : [];
    const gone = [...old.keys()].filter(title => !now.some(it => it.title === title));
    const isChanged = changed.length + gone.length > 0;
    const held = now.filter(it => it.first !== null || changed.includes(it));
    const some = all ? now : isChanged ? changed : held.length ? held : now.slice(0, 3);
    const titles = new Set([...some.slice(0, all ? 99 : HOLDERS).map(it => it.title), ...gone]);
    const wordOf = it => (changed.includes(it) ? "also changed" : it.first === null ? "empty" : "unchanged");
    const rest = now.filter(it => !titles.has(it.title)).map(it => [wordOf(it), it.title]);
    const buffersOf = ({ mbufs, clusters }) =>
      [...mbufs.map(it => name(it.n)), ...Object.keys(clusters).map(n => `cluster ${n}`)];
    const left = new Set(buffersOf(after)), had = before ? buffersOf(before) : [];
    rest.push(...had.filter(it => !left.has(it)).map(it => ["freed", it]));
    const cut = its => (its.length < 13 ? its : [...its.slice(0, 10), `${its.length - 10} more`]).join(", ");
    const said = ["freed", "also changed", "unchanged", "empty"].filter(word => rest.some(([it]) => it === word))
      .map(word => `${word}: ${cut(rest.filter(([it]) => it === word).map(([, its]) => its))}`).join("; ");
    return { titles, isChanged, rest: said };
  }

  // ---- the drawing

  class Picture {
    // `other` is the state on the other side of the line, `side` is "after" or "before" it. `form` is "beside" (a
    // holder's box at the left of its train), "above" or "upright"; a row has at most `most` mbufs.
    constructor({ state, other, side, titles, marked = [] }, form, most) {
      const isUpright = form === "upright", size = isUpright ? UPRIGHT : LYING, id = `mbufs${++drawings}`;
      Object.assign(this, { state, other, side, form, most, isUpright, size, id, marked, width: 0 });
      Object.assign(this, { boxes: [], links: [], refs: [], lanes: [] });
      this.at = new Map(state.mbufs.map(it => [it.n, it]));
      this.was = new Map(other ? other.mbufs.map(it => [it.n, it]) : []);
      const old = new Map(other ? holdersOf(other).map(it => [it.title, it]) : []);
      let y = 0;
      for (const it of holdersOf(state)) if (titles.has(it.title)) y = this.holder(it, old.get(it.title), y) + BETWEEN;
      y = Math.max(y, this.clusters() + BETWEEN);
      this.height = y - BETWEEN;
    }

    // Rows of fields, with their old values if these differ: the drawing, the same in words, and the changed fields.
    rows(x, y, wide, off, rows, old) {
      const before = old && new Map(old.map(([, field, value]) => [field, value])), isAfter = this.side === "after";
      const changed = new Set(), told = [];
      const drawn = rows.map(([at, field, value], i) => {
        const top = y + ROW * (at === 28 ? 8 : i), line = top + 12.5;
        const was = before ? before.get(field) || "none" : value;
        const isNew = was !== value, isShort = 6.7 * (field + was + value).length + off + 24 <= wide;
        const both = [isShort && svg("tspan", { class: "old" }, was), " ", svg("tspan", { class: "now" }, value)];
        if (isNew) changed.add(field);
        told.push(`${field} ${value}${isNew ? `, ${isAfter ? "before" : "then"} ${was}` : ""}`);
        return [rect(x, top, wide, ROW, isNew ? `row ${this.side}` : "row"),
          off > 2 && text(x + off - 4, line, "at", `${at}`, "end"), text(x + off + 5, line, "field", field),
          text(x + wide - 6, line, "value", isNew && isAfter ? both : value, "end")];
      });
      return { drawn, told: told.join(", "), how: field => (isAfter && changed.has(field) ? "changed" : "ink") };
    }

    parts(x, y, wide, off, high, all) {
      let top = y;
      return heights(all, high).map((tall, i) => {
        const part = all[i], isTwo = part.says && tall >= 30, middle = x + (off + wide) / 2;
        const line = top + tall / 2 + (isTwo ? -2.5 : 4), fill = isFree(part) ? { fill: `url(#${this.id}-free)` } : {};
        part.y = top;
        top += tall;
        return [rect(x + off, part.y, wide - off, tall, `part ${part.is}`, fill),
          text(x + off - 4, part.y + Math.min(12.5, tall / 2 + 4), "at", `${part.at}`, "end"),
          text(middle, line, `said ${part.is}`, part.said, "middle"),
          isTwo && text(middle, line + 13.5, "bytes", part.says, "middle")];
      });
    }

    // A box with its title above it, and a name for screen readers. `isOld`: it's in the state on the other side too.
    frame(x, y, wide, high, title, isOld, told, inside) {
      const isMarked = this.marked.some(n => title === `cluster ${n}`);
      const news = isMarked ? "shared" : !this.other || isOld ? "" : this.side === "after" ? "new" : "freed";
      this.boxes.push(svg("g", { role: "img", "aria-label": `${title}${news && `, ${news}`}: ${told}` },
        rect(x, y + TITLE, wide, high, "paper"), inside, rect(x, y + TITLE, wide, high, `box ${news}`),
        text(x + 1, y + 13, "title", title), news && text(x + wide - 1, y + 13, "news", news, "end")));
      this.width = Math.max(this.width, x + wide);
    }

    // A line with rounded corners through these points, with a tip at the last one.
    link(points, kind) {
      const far = ([x, y], [u, v]) => Math.hypot(u - x, v - y);
      const all = points.filter((it, i) => !i || far(it, points[i - 1]) > .5);
      const along = (a, b) => a.map((x, i) => x + ((b[i] - x) * Math.min(5, far(a, b) / 2)) / far(a, b));
      const bends = all.slice(1, -1).map((it, i) => `L${along(it, all[i])}Q${it} ${along(it, all[i + 2])}`).join("");
      const d = `M${all[0]}${bends}L${all[all.length - 1]}`;
      this.links.push(svg("path", { d, class: `link ${kind}`, "marker-end": `url(#${this.id}-${kind})` }));
    }

    // A line that leaves to the left, and then goes up or down.
    byLeft(x, from, to, lane, kind) {
      this.link([[x, from], [x - lane, from], [x - lane, to.into], [to.x - 1, to.into]], kind);
    }

    // An mbuf. Returns the points at which lines leave and enter it.
    mbuf(it, x, y, kind, isFirst) {
      const { mbuf: wide, off, room, elbow } = this.size, top = y + TITLE, old = this.was.get(it.n), right = x + wide;
      const isExt = it.cluster !== null, isBare = it.pkthdr === null, parts = partsOf(it, kind, isFirst);
      const { drawn, told, how } = this.rows(x, top, wide, off, rowsOf(it), old && rowsOf(old));
      const from = isBare ? HEADER : PKTHDR, begin = top + ROW * (isExt ? 9 : isBare ? 6 : 8), end = it.data + it.len;
      const bottom = isExt && this.isUpright ? begin + 18 : top + 8 * ROW + room, unused = free(8, HEADER, "unused");
      const own = [free(it.data - from, from), ...parts, free(MSIZE - end, end)].filter(part => part.len > 0);
      const all = isExt ? [free(MSIZE - EXT, EXT, "unused")] : own;
      if (isExt && isBare) drawn.push(this.parts(x, top + 6 * ROW, wide, off, 2 * ROW, [unused]));
      drawn.push(this.parts(x, begin, wide, off, bottom - begin, all));
      const holds = (isExt ? parts : own).map(part => `${part.said} ${part.says || `from byte ${part.at} on`}`);
      this.frame(x, y, wide, bottom - top, `mbuf ${it.n}`, old, [told, ...holds].join("; "), drawn);
      const half = row => top + (row + .5) * ROW, turn = right + elbow, data = half(3);
      const first = (all.find(part => part.at === it.data) || { y: bottom }).y + 1;
      const place = { it, x, y, right, bottom, data, next: half(0), nextpkt: half(1), ext: half(8),
        into: this.isUpright ? y + 9 : half(0), nextHow: how("m_next"),
        nextpktHow: how("m_nextpkt") };
      if (isExt) this.refs.push(place);
      else this.link([[right, data], [turn, data], [turn, first], [right + 1, first]], "data");
      return place;
    }

    // The mbufs of a packet in rows, or one below the other. Returns the first one, and the end of all.
    chain(mbufs, x, y, kind, most) {
      const { mbuf: wide, gap } = this.size, between = this.isUpright ? gap : 14, places = [];
      let top = y, line;
      mbufs.forEach((it, i) => {
        const column = i % Math.min(most, mbufs.length), last = places[i - 1];
        if (i && !column) top = line.bottom + 12 * line.below + between;
        if (!column) line = { bottom: 0, used: 0, below: 0 };
        const place = this.mbuf(it, x + column * (wide + gap), top, kind, !i), turn = last && last.right + 20;
        Object.assign(place, { line, isLast: column + 1 === most || i + 1 === mbufs.length });
        line.bottom = Math.max(line.bottom, place.bottom);
        line.below += it.cluster !== null && !place.isLast;
        if (column) this.link([[last.right, last.next], [place.x - 1, place.into]], last.nextHow);
        else if (last && this.isUpright) this.byLeft(x, last.next, place, 8, last.nextHow);
        else if (last) this.link([[last.right, last.next], [turn, last.next], [turn, top - 5], [x - 7, top - 5],
          [x - 7, place.into], [x - 1, place.into]], last.nextHow);
        places.push(place);
      });
      return { first: places[0], end: line.bottom + 12 * line.below };
    }

    says({ pkthdr: len, rcvif }, kind, i, all) {
      const offset = rcvif >> 1, last = count(offset + len - 1);
      if (kind === "chain") return "";
    if (kind === "so_rcv") return `datagram ${i + 1} of ${all}: ${plural(len - 16, "byte")}`;
      if (kind === "if_snd") return `packet ${i + 1} of ${all}: ${plural(len, "byte")}`;
      return `bytes ${count(offset)} to ${last}${rcvif % 2 ? ", more follow" : ", the last"}`;
    }

    // A train; `come` draws the line to its first mbuf. Returns its end.
    train(first, kind, x, y, lane, most, come) {
      const packets = walk(this.at, first, "nextpkt"), left = packets.length - SHOWN;
      let last = null, top = y;
      packets.forEach((it, i) => {
        if (left > 0 && i > 2 && i < packets.length - 2) return;
        let place, end;
        if (left > 0 && i === 2) {
          const middle = top + ROW / 2 + 2;
          [place, end] = [{ x, into: middle, nextpkt: middle, nextpktHow: "ink" }, top + ROW - 6];
          this.boxes.push(rect(x, top + 2, this.size.mbuf, ROW, "gap"),
            text(x + this.size.mbuf / 2, middle + 4, "aside", `${count(left)} more`, "middle"));
        } else {
          ({ first: place, end } = this.chain(walk(this.at, it.n, "next"), x, top + LABEL, kind, most));
          this.boxes.push(text(x, top + 12, "label", this.says(it, kind, i, packets.length)));
        }
        if (last) this.byLeft(x, last.nextpkt, place, lane, last.nextpktHow);
        else come(place);
        [last, top] = [place, end + BETWEEN - 6];
      });
      return top - BETWEEN + 6;
    }

    // The box of a holder, at the left of its train or above it.
    holder(it, old, y) {
      const isBeside = this.form === "beside", x = isBeside ? 0 : this.size.left, top = isBeside ? y + LABEL : y;
      const { drawn, told, how } = this.rows(x, top + TITLE, OWNER, 2, it.rows, old && old.rows), rows = it.rows.length;
      this.frame(x, top, OWNER, rows * ROW, it.title, old, told, drawn);
      const end = top + TITLE + rows * ROW, from = end - ROW / 2, turn = OWNER + 16, kind = how(it.rows[rows - 1][1]);
      if (it.first === null) return end;
      const { lane } = this.size, at = isBeside ? OWNER + 44 : x;
      const beside = to => this.link([[OWNER, from], [turn, from], [turn, to.into], [to.x - 1, to.into]], kind);
      const come = isBeside ? beside : to => this.byLeft(x, from, to, lane, kind);
      return Math.max(end, this.train(it.first, it.kind, at, isBeside ? y : end + 12, lane, this.most, come));
    }

    // A place for a line to go up or down next to the clusters, not used by another line.
    laneFor(x, a, b) {
      const low = Math.min(a, b), high = Math.max(a, b), most = Math.floor((this.size.gutter - 18) / 6);
      let i = 0;
      while (i < most && (this.lanes[i] || []).some(([from, to]) => from < high && low < to)) i++;
      (this.lanes[i] = this.lanes[i] || []).push([low, high]);
      return x - 12 - 6 * i;
    }

    // A line from a row of an mbuf to a cluster: straight, or below the row of mbufs if others follow.
    toCluster({ right, line, isLast }, from, step, x, to, kind, lane) {
      const below = line.bottom + 6 + 6 * line.used, y = isLast ? from : below;
      if (!isLast) line.used++;
      const via = lane === undefined ? this.laneFor(x, y, to) : lane;
      const around = isLast ? [] : [[right + step, from], [right + step, below]];
      this.link([[right, from], ...around, [via, y], [via, to], [x - 1, to]], kind);
      return via;
    }

    // The clusters next to the mbufs, each at the height of the first mbuf that refers to it. Returns their end.
    clusters() {
      const { cluster: wide, gutter } = this.size, x = this.width + gutter;
      let end = 0;
      for (const n of new Set(this.refs.map(ref => ref.it.cluster))) {
        const refs = this.refs.filter(ref => ref.it.cluster === n), top = Math.max(refs[0].ext - ROW / 2, end + 32);
        const cuts = [0, MCLBYTES, ...refs.flatMap(({ it }) => [it.data, it.data + it.len])].sort((a, b) => a - b);
        const parts = cuts.slice(1).map((to, i) => {
          const at = cuts[i], has = ({ it }) => it.data <= at && at < it.data + it.len;
          const who = refs.filter(has).map(ref => ref.it.n);
          const says = `mbuf${who.length > 1 ? "s" : ""} ${who.slice(0, 4).join(", ")}`;
          return who.length ? { at, len: to - at, is: "data", said: plural(to - at, "byte"), says } : free(to - at, at);
        }).filter(part => part.len > 0);
        const had = this.other && this.other.clusters[n], row = refs => [[0, "count", `${refs}`]];
        const { drawn, told } = this.rows(x, top, wide, 2, row(this.state.clusters[n]), had && row(had));
        drawn.push(this.parts(x, top + ROW, wide, 34, BYTES, parts));
        const holds = parts.map(part => `${part.said} ${part.says ? `of ${part.says} ` : ""}from byte ${part.at} on`);
        const says = [`2,048 bytes, ${told}`, ...holds].join("; ");
        this.frame(x, top - TITLE, wide, ROW + BYTES, `cluster ${n}`, had, says, drawn);
        for (const ref of refs) {
          const part = parts.find(part => part.at === ref.it.data) || parts[0];
          this.toCluster(ref, ref.data, 14, x, part.y + 1, "data");
        }
        let lane;
        for (const ref of refs) lane = this.toCluster(ref, ref.ext, 22, x, top + ROW / 2, "ext", lane);
        end = top + ROW + BYTES;
      }
      return end;
    }

    element(label) {
      const wide = this.width + 4, high = this.height + 4, scale = scaleOf();
      const tip = kind => svg("marker", { id: `${this.id}-${kind}`, viewBox: "0 0 8 8", refX: 7.4, refY: 4,
        markerWidth: 9, markerHeight: 9, markerUnits: "userSpaceOnUse", orient: "auto" },
        svg("path", { d: "M0 .6L8 4L0 7.4z", class: `tip ${kind}` }));
      const hatch = svg("pattern", { id: `${this.id}-free`, width: 6, height: 6, patternUnits: "userSpaceOnUse",
        patternTransform: "rotate(45)" }, rect(0, 0, 6, 6, "paper"), svg("path", { d: "M0 0V6", class: "stroke" }));
      return svg("svg", { role: "group", "aria-label": label, viewBox: `-2 -2 ${wide} ${high}`, width: wide * scale,
        height: high * scale },
        svg("defs", {}, hatch, ["ink", "ext", "data", "changed"].map(tip)), this.boxes,
        svg("g", { "aria-hidden": "true" }, this.links));
    }
  }

  // ---- a figure: the state after a line, and next to it the one before

  const scaleOf = () => parseFloat(getComputedStyle(document.documentElement).fontSize) / 16;

  // The widest form that fits. Long chains are broken into rows before they're drawn upright.
  function fitting(what, room) {
    const { mbuf, gap, gutter, cluster, left } = LYING;
    const most = Math.floor((room - left - gutter - cluster + gap - 8) / (mbuf + gap));
    for (const [form, at] of [["beside", Infinity], ["above", Infinity], ["above", most]]) {
      const it = at >= 2 && new Picture(what, form, at);
      if (it && it.width + 4 <= room) return it;
    }
    return new Picture(what, "upright", 1);
  }

  function make(tag, kind, ...children) {
    const it = document.createElement(tag);
    it.className = kind;
    it.append(...children);
    return it;
  }

  function draw(host, { after, before, caption, all, marked }) {
    const room = host.clientWidth / scaleOf(), { titles, isChanged, rest } = chosen(after, before, all);
    const now = fitting({ state: after, other: before, side: "after", titles, marked }, room);
    const isOld = isChanged && holdersOf(before).some(it => titles.has(it.title));
    const old = isOld && fitting({ state: before, other: after, side: "before", titles }, room);
    const isBeside = old && old.width + now.width + 56 <= room, earlier = "before the line";
    const news = !isChanged && before ? ", which changed nothing here" : now.width ? "" : ": nothing of it is left";
    const said = `after the line${news}`;
    const parts = [make("div", "", make("p", "when", said), now.width ? now.element(said) : "")];
    const [around, head] = isBeside ? ["div", "p"] : ["details", "summary"];
    if (old) parts.unshift(make(around, "", make(head, "when", earlier), old.element(earlier)));
    const figure = make("figure", `mbuf-figure${isBeside ? " is-beside" : ""}`, make("div", "sides", ...parts));
    const keys = [["changed", "new or changed"], ["mine", "headers and addresses"], ["data", "data"], ["free", "free"]];
    if (rest) figure.append(make("p", "legend", rest));
    if (after.mbufs.length) figure.append(make("p", "legend", ...keys.map(([kind, said]) => make("span", kind, said)),
      "numbers at the left: bytes from the beginning of the mbuf or cluster"));
    if (caption) figure.append(make("figcaption", "", ...[caption].flat()));
    host.replaceChildren(figure);
  }

  function mount(host, what) {
    let wide = 0;
    const again = () => { if (host.clientWidth !== wide) { wide = host.clientWidth; draw(host, what); } };
    again();
    const watch = new ResizeObserver(again);
    watch.observe(host);
    return () => watch.disconnect();
  }

  return { mount };
})();
