// One frame: its headers as a tree, and its bytes.

const SHOWN_LEN = 4096;
const LINK_LINUX_SLL2 = 276;
const UNITS = ENUMS.unit_kind;
const HEADERS = {
  [UNITS.ETHERNET2]: "Ethernet II", [UNITS.LINUX_SLL]: "Linux cooked capture v1", [UNITS.VLAN]: "VLAN tag",
  [UNITS.MACSEC]: "MACsec SecTag", [UNITS.ARP]: "ARP", [LINUX_SLL2]: "Linux cooked capture v2",
};
// the field that says what a protocol address of ARP is, and the one after the payload of Ethernet
const { ARP_PROTOCOL_TYPE, FCS } = ENUMS.field_name;
const IPV4 = 0x0800n;

function element(name, properties = {}, ...children) {
  const node = Object.assign(document.createElement(name), properties);
  node.append(...children);
  return node;
}

const places = (start, end) => start === end ? `at ${start}` : `${start} to ${end}`;
const count = (number, noun) => `${number.toLocaleString("en")} ${noun}${number === 1 ? "" : "s"}`;

// whether a byte is a character of ASCII that is printed (ISO/IEC 646)
const isPrinted = (byte) => 0x20 <= byte && byte <= 0x7e;

const hex = (number, digits) => "0x" + number.toString(16).toUpperCase().padStart(digits, "0");
const pair = (byte) => byte.toString(16).padStart(2, "0");

// a number, and what numbers of this kind call it
function named(decoder, kind, number) {
  const text = kind === KINDS.ETHER_TYPE ? hex(number, 4) : String(number);
  const name = decoder.nameOf(kind, number);
  return name ? `${text} (${name})` : text;
}

// the value of a field of this kind
function valueText(decoder, kind, field, bytes, isIpv4) {
  switch (kind) {
    case KINDS.FLAG: return field.value ? "1 (set)" : "0";
    case KINDS.BYTES: return Array.from(bytes, pair).join(":");
    case KINDS.PROTOCOL_ADDRESS: return isIpv4 ? bytes.join(".") : Array.from(bytes, pair).join(":");
    default: return named(decoder, kind, field.value);
  }
}

// what the bytes that are left are announced as
function restName(decoder, kind, number) {
  const kinds = ENUMS.rest_kind;
  switch (kind) {
    case kinds.START: return "the first header, which was not read";
    case kinds.ETHER_TYPE: return `payload of type ${named(decoder, KINDS.ETHER_TYPE, number)}`;
    case kinds.NETLINK: return `netlink, protocol ${number}`;
    case kinds.GRE: return `GRE, protocol ${hex(number, 4)}`;
    case kinds.IGNORED: return "a link whose protocol numbers have no meaning";
    case kinds.SEALED: return "payload that MACsec protects";
    default: return "what follows the ARP packet";
  }
}

// where a field is, as bytes or as bits of them
function placeOf(field) {
  const [first, last] = [Math.floor(field.bit / 8), Math.ceil((field.bit + field.bits) / 8)];
  if (field.bit % 8 === 0 && field.bits % 8 === 0) return `bytes ${places(first, last)}`;
  return `${count(field.bits, "bit")} from bit ${field.bit % 8} of byte ${first} on`;
}

// what is shown of a packet that is not walked, after the bytes that are a header
function notWalked(packet, start, text) {
  return { units: [], fields: [], ending: { restStart: start, restEnd: packet.len, isFault: false, text } };
}

// The headers of a frame, as the calls give them.
function readFrame(decoder, frame) {
  return { units: decoder.units(frame), fields: decoder.fields(frame), ending: decoder.ending(frame) };
}

// The headers of a packet, whose places count from its begin: a header of cooked capture v2 if it begins with one,
// and those of the frame.
function readHeaders(decoder, frame, packet) {
  const isSll2 = packet.linkType === LINK_LINUX_SLL2;
  const first = isSll2 ? decoder.linuxSll2(packet) : null;
  const refused = isSll2 ? "no header of cooked capture v2" : "";
  const text = first ? `protocol ${named(decoder, KINDS.ETHER_TYPE, first.protocol)}` : refused;
  const read = frame ? readFrame(decoder, frame) : notWalked(packet, first ? first.unit.headerLen : 0, text);
  const by = frame ? frame.offset : 0;
  const units = read.units.map((unit) => ({
    ...unit, offset: unit.offset + by, payloadStart: unit.payloadStart + by, payloadEnd: unit.payloadEnd + by,
  }));
  const before = first ? 1 : 0;
  const fields = read.fields.map((field) => ({ ...field, bit: field.bit + 8 * by, unit: field.unit + before }));
  const ending = { ...read.ending, restStart: read.ending.restStart + by, restEnd: read.ending.restEnd + by };
  return {
    units: first ? [first.unit, ...units] : units,
    fields: first ? [...first.fields, ...fields] : fields,
    ending, at: packet.at, len: packet.len,
  };
}

class FrameView {
  constructor(decoder) {
    this.decoder = decoder;
    this.headers = document.getElementById("headers");
    this.dump = document.getElementById("dump");
    // as page.css has it
    this.isNarrow = matchMedia("(max-width: 800px)");
    this.listen();
  }

  show(read) {
    this.read = read;
    this.marks = [];
    const nodes = read.units.map((unit, index) => this.unitNode(unit, index));
    this.headers.replaceChildren(...nodes, ...this.endingNodes());
    this.shownLen = Math.min(read.len, SHOWN_LEN);
    this.showBytes();
  }

  // ---- the tree

  unitNode(unit, index) {
    const fields = this.read.fields.filter((field) => field.unit === index);
    const title = element("summary", { className: `unit kind${unit.kind}` },
      element("b", { textContent: HEADERS[unit.kind] }), ` ${places(unit.offset, unit.offset + unit.headerLen)}`);
    const rows = fields.map((field) => this.fieldNode(field));
    if (unit.kind !== UNITS.ARP) rows.push(this.payloadNode(unit));
    const node = element("details", { open: true }, title, element("ul", {}, ...rows));
    this.target(title, unit.offset * 8, (unit.offset + unit.headerLen) * 8);
    return node;
  }

  fieldNode(field) {
    const { title, abbreviation, kind } = this.decoder.fieldTold(field.name);
    const first = this.read.at + Math.floor(field.bit / 8);
    const bytes = this.decoder.bytes(first, Math.ceil(field.bits / 8));
    const type = this.read.fields.find((other) => other.unit === field.unit && other.name === ARP_PROTOCOL_TYPE);
    const isIpv4 = type?.value === IPV4 && bytes.length === 4;
    const value = valueText(this.decoder, kind, field, bytes, isIpv4);
    const label = element("span", { className: "name" }, title);
    if (abbreviation) label.append(" ", element("small", { textContent: abbreviation }));
    const node = element("li", { tabIndex: 0, title: placeOf(field) },
      label, element("span", { className: "value", textContent: value }));
    this.target(node, field.bit, field.bit + field.bits);
    return node;
  }

  payloadNode(unit) {
    const by = unit.isClosed ? ", whose length is named" : "";
    const node = element("li", { tabIndex: 0 }, element("span", { className: "name", textContent: "Payload" }),
      element("span", { className: "value", textContent: `${places(unit.payloadStart, unit.payloadEnd)}${by}` }));
    this.target(node, unit.payloadStart * 8, unit.payloadEnd * 8);
    return node;
  }

  endingNodes() {
    const { ending } = this.read;
    const rest = element("div", { className: "rest", tabIndex: 0 });
    const where = places(ending.restStart, ending.restEnd);
    this.target(rest, ending.restStart * 8, ending.restEnd * 8);
    if (!ending.isFault) {
      const text = ending.text ?? restName(this.decoder, ending.restKind, ending.restProtocol);
      rest.append(element("b", { textContent: "Left" }), ` ${where}${text ? `: ${text}` : ""}`);
      return [rest];
    }
    const are = ending.missing === 1 ? "is" : "are";
    const missing = ending.missing ? ` At least ${count(ending.missing, "byte")} ${are} missing.` : "";
    rest.className = "fault";
    rest.append(element("b", { textContent: "Not read" }), ` ${where}: ${ending.fault}${missing}`);
    return [rest];
  }

  // ---- the bytes

  showBytes() {
    const perLine = this.isNarrow.matches ? 8 : 16;
    const bytes = this.decoder.bytes(this.read.at, this.shownLen);
    const kinds = this.kindsOf(this.shownLen);
    this.cells = Array.from(bytes, (byte, at) => [
      element("span", { className: kinds[at], textContent: pair(byte) }),
      element("span", { className: kinds[at], textContent: isPrinted(byte) ? String.fromCharCode(byte) : "." }),
    ]);
    this.cells.forEach((both, at) => both.forEach((cell) => { cell.dataset.at = at; }));
    this.dump.style.setProperty("--per-line", perLine);
    this.dump.style.setProperty("--offset-len", Math.max(4, String(bytes.length).length));
    this.dump.replaceChildren();
    for (let first = 0; first < bytes.length; first += perLine) this.dump.append(this.lineNode(first, perLine));
    if (this.shownLen < this.read.len) {
      const more = element("button", { type: "button", textContent: `Show all ${count(this.read.len, "byte")}` });
      more.addEventListener("click", () => { this.shownLen = this.read.len; this.showBytes(); });
      this.dump.append(more);
    }
  }

  // a line of bytes: the offset of the first one, all in hexadecimal, and all as ASCII
  lineNode(first, perLine) {
    const cells = this.cells.slice(first, first + perLine);
    return element("div", { className: "bytes" },
      element("span", { className: "offset", textContent: first, title: hex(first, 4) }),
      element("span", { className: "hex" }, ...cells.map(([byte]) => byte)),
      element("span", { className: "text" }, ...cells.map(([, letter]) => letter)));
  }

  // the class of each byte: that of the header that it is of, of what is left, or of what is not read
  kindsOf(len) {
    const kinds = Array(len).fill("");
    const { units, ending } = this.read;
    const paint = (start, end, name) => kinds.fill(name, Math.min(start, len), Math.min(end, len));
    paint(ending.restStart, ending.restEnd, ending.isFault ? "unread" : "left");
    units.forEach((unit) => paint(unit.offset, unit.offset + unit.headerLen, `kind${unit.kind}`));
    const sequences = this.read.fields.filter((field) => field.name === FCS);
    sequences.forEach((field) => paint(field.bit / 8, (field.bit + field.bits) / 8, `kind${UNITS.ETHERNET2}`));
    return kinds;
  }

  // ---- marks: a node of the tree and its bytes

  target(node, firstBit, endBit) {
    const mark = { node, first: Math.floor(firstBit / 8), end: Math.ceil(endBit / 8) };
    this.marks.push(mark);
    for (const [on, off] of [["mouseenter", "mouseleave"], ["focus", "blur"]]) {
      node.addEventListener(on, () => this.mark(mark, true));
      node.addEventListener(off, () => this.mark(mark, false));
    }
  }

  mark(mark, isOn) {
    mark.node.classList.toggle("marked", isOn);
    for (let at = mark.first; at < Math.min(mark.end, this.cells.length); at++) this.markByte(at, isOn);
  }

  markByte(at, isOn) {
    this.cells[at].forEach((cell) => cell.classList.toggle("marked", isOn));
  }

  listen() {
    const pass = (event, isOn) => {
      const at = event.target.dataset?.at;
      if (at === undefined) return;
      const marks = this.marks.filter((mark) => mark.first <= Number(at) && Number(at) < mark.end);
      marks.forEach((mark) => mark.node.classList.toggle("marked", isOn));
      this.markByte(at, isOn);
      event.target.title = `byte ${at}`;
    };
    this.dump.addEventListener("mouseover", (event) => pass(event, true));
    this.dump.addEventListener("mouseout", (event) => pass(event, false));
    this.isNarrow.addEventListener("change", () => { if (this.read) this.showBytes(); });
  }
}
