// The page: a capture or a frame comes in, its packets are listed, and one of them is shown.

// how many characters are shown before and after the place where an expression is wrong
const AROUND_LEN = 40;
// `#eth:` and digits, as the words of the page's links
const FRAME_ADDRESS = /^#(eth|fcs|sll|type-[0-9a-fA-F]{4}):([0-9a-fA-F]*)$/;

// what an expression has around a place, with the word there marked
function around(expression, offset) {
  const bytes = encodeText(expression);
  const [before, rest] = [decodeText(bytes.slice(0, offset)), decodeText(bytes.slice(offset))];
  const word = /^\S*/.exec(rest)[0];
  const mark = element("mark", { textContent: word.slice(0, AROUND_LEN) || "…" });
  return element("code", {}, before.slice(-AROUND_LEN), mark, rest.slice(word.length).slice(0, AROUND_LEN));
}

class Page {
  constructor(decoder) {
    this.decoder = decoder;
    this.frame = new FrameView(decoder);
    this.list = new PacketList(decoder, (index) => this.choosePacket(index));
    this.name = "";
    this.turns = 0;
    this.listen();
    this.readAddress();
  }

  // ---- what comes in

  listen() {
    $("open").addEventListener("click", () => $("file").click());
    $("file").addEventListener("change", () => {
      const files = [...$("file").files];
      // so that the same file can be opened again
      $("file").value = "";
      this.openFiles(files);
    });
    $("input").addEventListener("submit", (event) => { event.preventDefault(); this.openDigits(); });
    $("digits").addEventListener("input", () => this.openDigits());
    $("start").addEventListener("change", () => { if ($("digits").value) this.openDigits(); });
    $("selection").addEventListener("submit", (event) => { event.preventDefault(); this.select(); });
    $("expression").addEventListener("input", () => this.select());
    window.addEventListener("hashchange", () => {
      this.readAddress();
      if (!location.hash) $("list").focus({ preventScroll: true });
    });
    document.addEventListener("dragover", (event) => event.preventDefault());
    document.addEventListener("drop", (event) => {
      event.preventDefault();
      this.openFiles([...event.dataTransfer.files]);
    });
  }

  // the frame of the address, or else the capture
  readAddress() {
    const told = FRAME_ADDRESS.exec(location.hash);
    if (!told) return this.showCapture();
    $("digits").value = told[2];
    this.openFrame(told[1].toLowerCase(), told[2]);
  }

  // Sets the address: that of a frame, or "". The browser's Back leads from a frame to the capture, and from the
  // capture to a frame, but not through each digit of a frame that is typed.
  setAddress(address) {
    const isFrame = FRAME_ADDRESS.test(location.hash);
    if (location.hash === address || !(isFrame || address)) return;
    const step = isFrame && address ? "replaceState" : "pushState";
    history[step](null, "", address || location.pathname + location.search);
  }

  openDigits() {
    const text = $("digits").value.replace(/[\s:.-]/g, "").replace(/^0x/i, "");
    if (text) this.openFrame($("start").value, text);
    else this.showCapture();
  }

  openFrame(word, text) {
    if (/[^0-9a-fA-F]/.test(text) || text.length % 2) {
      return this.notice("A frame is written as pairs of hexadecimal digits.");
    }
    const bytes = Uint8Array.from(text.match(/../g) ?? [], (pair) => parseInt(pair, 16));
    const isType = word.startsWith("type-");
    const [start, etherType] = isType ? [STARTS.type, parseInt(word.slice(5), 16)] : [STARTS[word], 0];
    const frame = this.decoder.openFrame(bytes, start, etherType);
    this.setAddress(`#${word}:${text}`);
    if ([...$("start").options].some((option) => option.value === word)) $("start").value = word;
    this.notice("");
    this.toggle("frame");
    this.list.unmark();
    const len = count(frame.len, "byte");
    this.showFrame(frame, frame, ["Frame", len]);
    this.title(`Frame of ${len}`, this.name);
    if (this.name) $("about").append(" · ", element("a", { href: "#", textContent: `back to ${this.name}` }));
  }

  // the first of these files
  async openFiles(files) {
    const [file] = files;
    if (!file) return;
    this.turns += 1;
    const turn = this.turns;
    const read = await readFile(file).catch((error) => ({ error }));
    // another file was opened in the meantime
    if (turn !== this.turns) return;
    const { name } = file;
    const words = [read.error ? `${name} could not be read: ${read.error.message}` : this.openCapture(name, read)];
    if (files.length > 1) words.push(`${files.length} files were dropped; only the first, ${name}, was opened.`);
    this.notice(words.filter(Boolean).join(" "));
  }

  // shows the packets of a file; returns why it has none, or ""
  openCapture(name, { bytes, isUnpacked }) {
    this.name = "";
    this.list.show([]);
    let found;
    try {
      found = this.decoder.openCapture(bytes);
    } catch (error) {
      this.showCapture();
      return `${name} could not be read: ${error.message}`;
    }
    $("expression").value = "";
    const fault = found.fault + (found.fault && isUnpacked ? " Offsets count bytes of the decompressed file." : "");
    $("ending").hidden = found.isWhole;
    $("ending").textContent = fault;
    if (found.count) {
      this.name = name;
      this.toggle("frame");
      this.select();
      return "";
    }
    this.showCapture();
    this.title(name);
    return `${name} has no packets. ${fault}`.trim();
  }

  // ---- what is shown

  // the capture that is open, with the packet that was chosen last; without one what the page is for
  showCapture() {
    if (this.list.indices.length) return this.list.resume();
    this.leaveFrame();
    this.toggle(this.name ? "" : "empty");
    this.title(this.name);
  }

  leaveFrame() {
    this.setAddress("");
    $("digits").value = "";
    this.notice("");
  }

  // one part of the page or none, beside the packets of the capture that is open
  toggle(shown) {
    for (const id of ["empty", "frame"]) $(id).hidden = id !== shown;
    for (const id of ["packets", "selection"]) $(id).hidden = !this.name;
    document.body.classList.toggle("capture", Boolean(this.name));
  }

  title(...parts) {
    document.title = [...parts.filter(Boolean), "Packet headers"].join(" · ");
  }

  notice(text) {
    $("notice").textContent = text;
    $("notice").hidden = !text;
  }

  select() {
    const expression = $("expression").value;
    const isGiven = expression.trim() !== "";
    const found = isGiven ? this.decoder.select(expression) : { selected: [...Array(this.decoder.count).keys()] };
    const isWrong = Boolean(found.error);
    $("expression").setAttribute("aria-invalid", isWrong);
    $("selection").classList.toggle("wrong", isWrong);
    if (isWrong) {
      $("selected").replaceChildren(found.error, " ", around(expression, found.offset), " The list is unchanged.");
      return;
    }
    const [all, some] = [count(this.decoder.count, "packet"), found.selected.length];
    const told = isGiven ? `${some.toLocaleString("en")} of ${all}` : all;
    $("none").hidden = some > 0;
    $("selected").textContent = some ? told : `No packet matches: ${told}`;
    this.list.show(found.selected);
    this.showCapture();
  }

  choosePacket(index) {
    this.leaveFrame();
    this.toggle("frame");
    const packet = this.decoder.packet(index);
    const number = (index + 1).toLocaleString("en");
    const { day, time } = lineOf(this.decoder, index);
    const about = [`Packet ${number}`, `${day} ${time}`.trim(), count(packet.len, "byte")];
    if (packet.len < packet.originalLen) about.push(`cut from ${count(packet.originalLen, "byte")}`);
    const frame = this.decoder.frameOf(index);
    const link = this.decoder.nameOf(KINDS.LINK_TYPE, packet.linkType);
    about.push(link || `link type ${packet.linkType}`);
    this.showFrame(frame, packet, about);
    if (!link) $("about").append(" · headers of this link type are not read");
    this.title(`${this.name}, packet ${number}`);
    if (frame) $("about").append(" · ", this.link(frame));
  }

  // shows a frame
  showFrame(frame, packet, about) {
    const read = readHeaders(this.decoder, frame, packet);
    $("about").replaceChildren(about.join(" · "));
    this.frame.show(read);
  }

  // the frame's own address
  link(frame) {
    const [name] = Object.entries(STARTS).find(([, start]) => start === frame.start);
    const word = name === "type" ? `type-${frame.etherType.toString(16).padStart(4, "0")}` : name;
    const text = Array.from(this.decoder.bytes(frame.at, frame.len), pair).join("");
    return element("a", { href: `#${word}:${text}`, textContent: "link to this frame" });
  }
}

async function begin() {
  try {
    window.page = new Page(await Decoder.fromBase64(MODULE));
  } catch (error) {
    const isMissing = error instanceof WebAssembly.CompileError;
    const notice = $("notice");
    notice.hidden = false;
    notice.textContent = isMissing
      ? "This browser has no 64-bit memories for WebAssembly. Chromium, Chrome and Edge have them from version 133 on,"
        + " Firefox from 134 on."
      : `The page could not start: ${error.message}`;
    $("input").hidden = true;
  }
  window.isReady = true;
}
begin();
