// A list of any length: only the rows in sight stand in the page. The keyboard's focus is the list's own, so it lasts as rows come and go.
// A row stays as long as its item is the same one and looks the same. Where it stands and how tall it is are remembered: to ask the browser amid changes
// has it lay the page out at once, several times for a picture.

/** @type {Record<string, number>} */
const ASIDE = { ArrowUp: -1, ArrowDown: 1 };

/** @template Item @typedef {{ item: Item, look: string | number, row: HTMLElement }} Row */
/** @template Item @typedef {{ onKey?: (key: string, item: Item) => unknown, look?: (item: Item) => string | number }} How */

/** @template Item */
export class List {
  /** @type {readonly Item[]} */ items = [];
  /** @type {Map<number, Row<Item>>} */ rows = new Map();        // those that stand in the page, by the item's number
  chosen = -1;                  // the item that keys move from
  top = 0; height = 0;          // of what is in sight, in pixels of the page

  // `row` makes the element of an item, and `look` tells what of its row may be another at another time; NaN is never the same
  /** @param {HTMLElement} element @param {number} rowHeight @param {(item: Item, i: number) => HTMLElement} row @param {How<Item>} how */
  constructor(element, rowHeight, row, { onKey = () => false, look = () => NaN } = {}) {
    this.element = element;
    this.rowHeight = rowHeight;
    this.row = row;
    this.look = look;
    this.body = element.appendChild(document.createElement("div"));
    this.body.className = "rows";
    element.tabIndex = 0;
    element.addEventListener("scroll", () => this.see());
    element.addEventListener("keydown", event => this.press(event, onKey));
    element.addEventListener("click", () => element.focus({ preventScroll: true }));
    new ResizeObserver(() => this.see()).observe(element);
  }

  // Another part is in sight
  see() {
    this.top = this.element.scrollTop;
    this.height = this.element.clientHeight;
    this.draw();
  }

  // Up and down choose rows; onKey(key, item) is told of these, and of what else is pressed, and says whether it took the key
  /** @type {(event: KeyboardEvent, onKey: (key: string, item: Item) => unknown) => void} */
  press(event, onKey) {
    if (event.shiftKey) return;          // the page's own: the pixel is moved
    const aside = ASIDE[event.key] ?? 0;
    if (aside) this.chosen = Math.max(0, Math.min(this.items.length - 1, this.chosen + aside));
    const item = this.items[this.chosen];
    if (!item || !onKey(event.key, item)) return;
    if (aside) this.reveal(this.chosen);
    event.preventDefault();
    event.stopPropagation();
  }

  /** @type {(items: readonly Item[]) => void} */
  show(items) {
    this.items = items;
    this.draw();
  }

  /** @type {(i: number) => void} */
  choose(i) {
    this.chosen = i;
    this.reveal(i);
  }

  draw() {
    const before = this.rows;
    const first = Math.max(0, Math.floor(this.top / this.rowHeight) - 5);
    const last = Math.min(this.items.length, Math.ceil((this.top + this.height) / this.rowHeight) + 5);
    this.body.style.height = `${this.items.length * this.rowHeight}px`;
    this.rows = new Map(this.items.slice(first, last).map((item, i) => [first + i, this.rowOf(item, first + i)]));
    for (const [i, { row }] of before) if (this.rows.get(i)?.row !== row) row.remove();
    let next = this.body.firstChild;
    for (const { row } of this.rows.values()) {
      if (row === next) next = row.nextSibling;
      else this.body.insertBefore(row, next);
    }
    if (this.chosen >= 0) this.element.setAttribute("aria-activedescendant", `${this.element.id}-${this.chosen}`);
    else this.element.removeAttribute("aria-activedescendant");
  }

  // The rows that stand there are made anew when they are drawn next: a hand has changed one
  forget() {
    for (const kept of this.rows.values()) kept.look = NaN;
  }

  /** @type {(item: Item, i: number) => Row<Item>} */
  rowOf(item, i) {
    const was = this.rows.get(i), look = this.look(item);
    if (was?.item === item && was.look === look) return was;
    const row = this.row(item, i);
    row.id = `${this.element.id}-${i}`;
    row.style.top = `${i * this.rowHeight}px`;
    row.style.height = `${this.rowHeight}px`;
    row.setAttribute("aria-posinset", i + 1);
    row.setAttribute("aria-setsize", this.items.length);
    return { item, look, row };
  }

  /** @type {(i: number) => void} */
  reveal(i) {
    if (i < 0) return;
    const top = i * this.rowHeight;
    if (top < this.top + this.rowHeight || top + 2 * this.rowHeight > this.top + this.height) {
      this.body.style.height = `${this.items.length * this.rowHeight}px`;
      this.element.scrollTop = top - this.height / 2;
      this.top = this.element.scrollTop;
    }
    this.draw();
  }
}
