// The packets of a capture: a table that makes only the rows in view.

// as page.css has it, also of the headings
const ROW_HEIGHT = 28;
const MOST_HEIGHT = 8_000_000;

const $ = (id) => document.getElementById(id);

// a packet's line for the eye: the day and the time, UTC, if it has a date, and what follows
function lineOf(decoder, index) {
  const [, moment, ...told] = decoder.brief(index).split(" ");
  const [day, time] = moment.endsWith("Z") ? moment.slice(0, -1).split("T") : ["", moment];
  return { day, time, line: told.join(" ") };
}

class PacketList {
  constructor(decoder, onChosen) {
    this.decoder = decoder;
    this.onChosen = onChosen;
    this.list = $("list");
    this.scroll = $("scroll");
    this.indices = [];
    this.chosen = 0;
    this.isMarked = true;
    this.scroll.addEventListener("scroll", () => this.draw());
    this.list.addEventListener("keydown", (event) => this.key(event));
    this.list.addEventListener("click", (event) => {
      const row = event.target.closest("[data-row]");
      if (row) this.choose(Number(row.dataset.row));
    });
    new ResizeObserver(() => this.draw()).observe(this.scroll);
  }

  show(indices) {
    this.indices = indices;
    this.chosen = 0;
    this.scroll.scrollTop = 0;
    this.list.setAttribute("aria-rowcount", indices.length + 1);
    $("height").style.height = `${Math.min(indices.length * ROW_HEIGHT, MOST_HEIGHT) + ROW_HEIGHT}px`;
    this.draw();
  }

  // how many rows are seen below the headings
  visible() {
    return Math.max(1, Math.floor(this.scroll.clientHeight / ROW_HEIGHT) - 1);
  }

  // the rows between the first one that is seen and the last; of very long lists the place of the scroll bar is a
  // share of the rows
  draw() {
    const seen = this.visible();
    const hidden = Math.max(0, this.indices.length - seen);
    const way = Math.max(1, $("height").offsetHeight - this.scroll.clientHeight);
    this.first = Math.min(hidden, Math.round(this.scroll.scrollTop / way * hidden));
    const rows = this.indices.slice(this.first, this.first + seen + 1);
    $("rows").replaceChildren(...rows.map((index, at) => this.row(index, this.first + at)));
    const active = $(`row${this.chosen}`);
    if (active) this.list.setAttribute("aria-activedescendant", active.id);
    else this.list.removeAttribute("aria-activedescendant");
  }

  row(index, at) {
    const texts = this.texts(index);
    const cells = Object.entries(texts).map(([className, textContent]) => element("td", { className, textContent }));
    cells.at(-1).title = texts.line;
    const node = element("tr", { className: "row", id: `row${at}` }, ...cells);
    node.dataset.row = at;
    node.setAttribute("aria-rowindex", at + 2);
    node.setAttribute("aria-selected", this.isMarked && at === this.chosen);
    return node;
  }

  // what a row says in each column
  texts(index) {
    const packet = this.decoder.packet(index);
    const { day, time, line } = lineOf(this.decoder, index);
    return {
      number: (index + 1).toLocaleString("en"), day, time,
      length: packet.len < packet.originalLen ? `${packet.len} of ${packet.originalLen}` : String(packet.len), line,
    };
  }

  choose(at) {
    if (!this.indices.length) return;
    this.chosen = Math.max(0, Math.min(at, this.indices.length - 1));
    const seen = this.visible();
    const hidden = Math.max(1, this.indices.length - seen);
    const way = $("height").offsetHeight - this.scroll.clientHeight;
    if (this.chosen < this.first) this.scroll.scrollTop = this.chosen / hidden * way;
    if (this.chosen >= this.first + seen) this.scroll.scrollTop = (this.chosen - seen + 1) / hidden * way;
    this.resume();
  }

  // shows the packet that was chosen last, and leaves the list where it was scrolled to
  resume() {
    this.isMarked = true;
    this.draw();
    this.onChosen(this.indices[this.chosen]);
  }

  // while a frame alone is shown, no packet is selected
  unmark() {
    this.isMarked = false;
    this.draw();
  }

  key(event) {
    const page = this.visible();
    const steps = { ArrowUp: -1, ArrowDown: 1, PageUp: -page, PageDown: page, Home: -Infinity, End: Infinity };
    if (!(event.key in steps)) return;
    event.preventDefault();
    this.choose(this.chosen + steps[event.key]);
  }
}
