// The calls of the module, and what is read of the structs that they fill.

const { DONE } = ENUMS.status;
const KINDS = ENUMS.field_kind;
// what a frame begins with, by the words of the page's links
const STARTS = {
  eth: ENUMS.start.ETHERNET2, fcs: ENUMS.start.ETHERNET2_FCS, sll: ENUMS.start.LINUX_SLL, type: ENUMS.start.ETHER_TYPE,
};
const PAGE = 65536;
const SCRATCH_LEN = 16 * PAGE;
// the kind of a header of cooked capture v2, which is no unit of a walk
const LINUX_SLL2 = 6;
// the length of the longest text that a call writes, and that of the longest expression
const TEXT_LEN = PAGE;
const EXPRESSION_LEN = 4096;
// how many tags of a packet its line in the list names
const LINE_TAGS = 1000;

const decodeText = (bytes) => new TextDecoder().decode(bytes);
const encodeText = (text) => new TextEncoder().encode(text);

class Decoder {
  static async fromBase64(text) {
    const bytes = Uint8Array.from(atob(text), (letter) => letter.charCodeAt(0));
    const { instance } = await WebAssembly.instantiate(bytes, {});
    return new Decoder(instance.exports);
  }

  constructor(calls) {
    this.calls = calls;
    this.scratch = Math.ceil(Number(calls.__heap_base.value) / PAGE) * PAGE;
    this.begin = this.scratch + SCRATCH_LEN;
    this.told = new Map();
    this.clear();
  }

  // ---- memory: small structs in the scratch, after it the capture that is open, and then a frame alone and arrays

  clear() {
    this.count = 0;
    this.captureEnd = this.begin;
    this.end = this.begin;
    this.grow(this.end);
  }

  grow(end) {
    const pages = Math.ceil((end - this.calls.memory.buffer.byteLength) / PAGE);
    if (pages > 0) this.calls.memory.grow(BigInt(pages));
  }

  place(len) {
    const at = Math.ceil(this.end / 16) * 16;
    this.end = at + len;
    this.grow(this.end);
    return at;
  }

  put(bytes) {
    const at = this.place(bytes.length);
    this.bytes(at, bytes.length).set(bytes);
    return at;
  }

  bytes(at, len) {
    return new Uint8Array(this.calls.memory.buffer, at, len);
  }

  // numbers of structs, each read by its size in bytes
  number(at, size) {
    const view = new DataView(this.calls.memory.buffer);
    switch (size) {
      case 1: return view.getUint8(at);
      case 2: return view.getUint16(at, true);
      case 4: return view.getUint32(at, true);
      default: return Number(view.getBigUint64(at, true));
    }
  }

  big(at) {
    return new DataView(this.calls.memory.buffer).getBigUint64(at, true);
  }

  // reads the numbers of a struct, by their names in c/etherpeel.h
  struct(name, at) {
    return (field) => {
      const [offset, size] = STRUCTS[name].fields[field];
      return this.number(at + offset, size);
    };
  }

  // the text that a call writes to a target of TEXT_LEN bytes, or "" if it writes none
  text(call) {
    const [target, len] = [this.scratch + SCRATCH_LEN - TEXT_LEN, this.scratch];
    const status = call(BigInt(target), BigInt(TEXT_LEN), BigInt(len));
    return status === DONE ? decodeText(this.bytes(target, this.number(len, 8)).slice()) : "";
  }

  // ---- captures

  // the number of packets of a file, which is kept until the next one, and where and why they end
  openCapture(bytes) {
    this.clear();
    const [count, end] = [this.scratch, this.scratch + 8];
    const file = [BigInt(this.put(bytes)), BigInt(bytes.length)];
    const status = this.calls.etherpeel_capture(...file, 16n, 0n, BigInt(count), BigInt(end));
    this.count = this.number(count, 8);
    const needed = this.struct("capture_end", end)("needed");
    this.packets = this.place(this.count * STRUCTS.captured.size);
    this.bytes(this.packets, this.count * STRUCTS.captured.size).fill(0);
    this.calls.etherpeel_capture(...file, BigInt(this.packets), BigInt(this.count), BigInt(count), BigInt(end));
    const fault = this.text((...target) => this.calls.etherpeel_capture_fault_text(...file, ...target));
    this.matches = this.place(this.count);
    this.captureEnd = this.end;
    return { count: this.count, isWhole: status === DONE, needed, fault };
  }

  packetAt(index) {
    return this.packets + index * STRUCTS.captured.size;
  }

  packet(index) {
    const read = this.struct("captured", this.packetAt(index));
    return {
      at: read("packet"),
      len: read("packet_len"),
      seconds: read("seconds"),
      nanoseconds: read("nanoseconds"),
      originalLen: read("original_len"),
      linkType: read("link_type"),
      hasTime: read("has_time") === 1,
    };
  }

  // the packet on a line for the eye, as `ether_capture --format brief` prints it
  brief(index) {
    const format = encodeText("brief");
    const at = this.scratch + 4096;
    this.bytes(at, format.length).set(format);
    const words = [BigInt(at), BigInt(format.length), BigInt(index + 1)];
    const packet = BigInt(this.packetAt(index));
    const call = (...to) => this.calls.etherpeel_format_limited(...words, packet, BigInt(LINE_TAGS), ...to);
    return this.text(call).trimEnd();
  }

  // what is walked of a packet: its frame, and what that begins with; none of a link type that isn't known
  frameOf(index) {
    const frame = this.scratch;
    const status = this.calls.etherpeel_captured_frame(BigInt(this.packetAt(index)), BigInt(frame));
    if (status !== DONE) return null;
    const read = this.struct("frame", frame);
    return {
      at: read("bytes"), len: read("len"), offset: read("offset"), start: read("start"), etherType: read("ether_type"),
    };
  }

  // the indices of the packets that an expression selects, or where and why it is none
  select(expression) {
    const text = encodeText(expression);
    const [at, error] = [this.scratch + 4096, this.scratch];
    if (text.length > EXPRESSION_LEN) return { error: "The expression is too long.", offset: text.length };
    this.bytes(at, text.length).set(text);
    const words = [BigInt(at), BigInt(text.length)];
    const packets = [BigInt(this.packets), BigInt(this.count), BigInt(this.matches), BigInt(this.count)];
    if (this.calls.etherpeel_select(...words, ...packets, BigInt(error)) !== DONE) {
      const offset = this.struct("filter_error", error)("offset");
      return { error: this.text((...target) => this.calls.etherpeel_filter_error_text(...words, ...target)), offset };
    }
    const matches = this.bytes(this.matches, this.count);
    const selected = [];
    matches.forEach((match, index) => match && selected.push(index));
    return { selected };
  }

  // ---- frames

  // a frame alone, beside the capture
  openFrame(bytes, start, etherType) {
    this.end = this.captureEnd;
    return { at: this.put(bytes), len: bytes.length, offset: 0, start, etherType };
  }

  // an array that a call fills: it is called again with room for all elements if they are more than `room`
  array(call, size, room, read) {
    const [count, array] = [this.scratch, this.scratch + 4096];
    call(BigInt(array), BigInt(room), BigInt(count));
    const found = this.number(count, 8);
    if (found > room) {
      const end = this.end;
      const more = this.place(found * size);
      call(BigInt(more), BigInt(found), BigInt(count));
      const elements = Array.from({ length: found }, (_, index) => read(more + index * size));
      this.end = end;
      return elements;
    }
    return Array.from({ length: found }, (_, index) => read(array + index * size));
  }

  words(frame) {
    return [frame.start, frame.etherType, BigInt(frame.at), BigInt(frame.len)];
  }

  units(frame) {
    const call = (...to) => this.calls.etherpeel_walk(...this.words(frame), ...to);
    return this.array(call, STRUCTS.unit.size, 64, (at) => this.unit(at));
  }

  unit(at) {
    const read = this.struct("unit", at);
    return {
      offset: read("offset"),
      headerLen: read("header_len"),
      payloadStart: read("payload_start"),
      payloadEnd: read("payload_end"),
      kind: read("kind"),
      isClosed: read("closed") === 1,
    };
  }

  fields(frame) {
    const call = (...to) => this.calls.etherpeel_fields(...this.words(frame), ...to);
    return this.array(call, STRUCTS.field.size, 64, (at) => this.field(at));
  }

  field(at) {
    const read = this.struct("field", at);
    return {
      bit: read("bit_offset"),
      bits: read("bit_len"),
      value: this.big(at + STRUCTS.field.fields.value[0]),
      unit: read("unit"),
      name: read("name"),
    };
  }

  // what a field is called, and what its value is
  fieldTold(name) {
    if (!this.told.has(name)) {
      const { TITLE, ABBREVIATION } = ENUMS.field_part;
      const part = (which) => this.text((...to) => this.calls.etherpeel_field_text(name, which, ...to));
      const kind = this.calls.etherpeel_field_kind(name);
      this.told.set(name, { title: part(TITLE), abbreviation: part(ABBREVIATION), kind });
    }
    return this.told.get(name);
  }

  // what a number of this kind is called, or ""
  nameOf(kind, number) {
    return this.text((...to) => this.calls.etherpeel_number_name(kind, BigInt(number), ...to));
  }

  // the header of a packet of cooked capture v2, with its fields; none if it is refused
  linuxSll2(packet) {
    const words = [BigInt(packet.at), BigInt(packet.len)];
    const header = this.scratch;
    if (this.calls.etherpeel_linux_sll2(...words, BigInt(header)) !== DONE) return null;
    const read = this.struct("linux_sll2_header", header);
    const [end, protocol] = [read("payload_start"), read("protocol")];
    const call = (...to) => this.calls.etherpeel_linux_sll2_fields(...words, ...to);
    const fields = this.array(call, STRUCTS.field.size, 64, (at) => this.field(at));
    const unit = {
      offset: 0, headerLen: end, payloadStart: end, payloadEnd: packet.len, kind: LINUX_SLL2, isClosed: false,
    };
    return { unit, fields, protocol };
  }

  // what is left after the headers, and why the walk ends
  ending(frame) {
    const found = this.scratch;
    this.calls.etherpeel_summary(...this.words(frame), BigInt(found));
    const read = this.struct("found", found);
    const readFault = this.struct("fault", found + STRUCTS.found.fields.fault[0]);
    const ending = {
      restStart: read("rest_start"),
      restEnd: read("rest_end"),
      restKind: read("rest_kind"),
      restProtocol: read("rest_protocol"),
      isFault: readFault("kind") !== ENUMS.fault_kind.NONE,
      faultOffset: readFault("offset"),
      requiredLen: readFault("required_len"),
      missing: readFault("missing"),
    };
    ending.fault = this.text((...target) => this.calls.etherpeel_fault_text(...this.words(frame), ...target));
    return ending;
  }
}
