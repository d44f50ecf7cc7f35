// The image on its canvas: channels, zoom, what changed, and what is laid over it.

import { listenToHands } from "./touch.js";
import { knownBands } from "./image.js";
import { lighten, paint, paintDifference, paintGreys, paintValues } from "./paint.js";
import { contextOf } from "./elements.js";
import { show, shown } from "./shown.js";

/** @typedef {import("./types").Band} Band */
/** @typedef {import("./types").Chart} Chart */
/** @typedef {import("./types").Difference} Difference */
/** @typedef {import("./types").Image} Image */
/** @typedef {import("./types").Part} Part */
/** @typedef {import("./types").Place} Place */
/** @typedef {import("./types").Point} Point */
/** @typedef {import("./types").Rect} Rect */
// Elements of the page
/** @typedef {{ stage: HTMLElement, sheet: HTMLElement, canvas: HTMLCanvasElement, grid: HTMLElement, scissor: HTMLElement, box: HTMLElement, cross: HTMLElement, outline: SVGSVGElement, mark: HTMLElement }} Parts */
/** @typedef {{ difference?: Difference | null, isWhite?: boolean, lights?: Uint8Array | null }} How */

/** @type {(value: number) => [r: number, g: number, b: number]} */
const grey = value => [value, value, value];

export class Picture {
  width = 0; height = 0;                // of the target
  fitted = true;
  moved = 0;
  /** @type {Part | null} */ part = null;                                     // that is on the canvas
  /** @type {{ image: Image, how: string } | null} */ plain = null;           // an image that is there as it is
  /** @type {Rect | null} */ crossAt = null;
  /** @type {Rect | null} */ boxAt = null;
  /** @type {Rect | null} */ scissorAt = null;
  /** @type {Point | null} */ markAt = null;
  /** @type {(place: Place) => void} */ onPick = () => {};
  /** @type {(place: Place | null) => void} */ onHover = () => {};
  /** @type {(zoom: number) => void} */ onZoom = () => {};
  /** @type {(visible: Rect) => void} */ onMove = () => {};
  onView = () => {};

  /** @param {Parts} parts */
  constructor(parts) {
    this.stage = parts.stage;
    this.sheet = parts.sheet;
    this.canvas = parts.canvas;
    this.grid = parts.grid;
    this.scissor = parts.scissor;
    this.box = parts.box;
    this.cross = parts.cross;
    this.outline = parts.outline;
    this.mark = parts.mark;
    this.listen();
  }

  get zoom() { return shown.zoom; }

  // Shows an image; where a difference is given, what is the same is dim, or what differs white; between the lights of a range, where there is one.
  // Of one that differs in some rows from what is shown those alone are painted
  /** @type {(image: Image, how?: How) => void} */
  show(image, { difference = null, isWhite = false, lights = null } = {}) {
    this.setSize(image);
    const how = JSON.stringify(shown.channels), bands = this.plain?.how === how && !difference && !lights ? knownBands(image, this.plain.image) : null;
    if (bands) this.drawBands(image, bands);
    else this.draw(image, pixels => {
      if (difference && isWhite) paintDifference(pixels, image.bytes, difference.mask);
      else paint(pixels, image.bytes, difference?.mask, shown.channels);
      if (lights) lighten(pixels, lights);
    });
    this.plain = difference || lights ? null : { image, how };
    this.sheet.classList.toggle("transparent", shown.channels.a && (shown.channels.r || shown.channels.g || shown.channels.b));
  }

  /** @type {(image: Image, bands: Band[]) => void} */
  drawBands({ bytes, columns }, bands) {
    for (const [first, count] of bands) {
      const band = new ImageData(columns, count);
      paint(band.data, bytes.subarray(4 * columns * first, 4 * columns * (first + count)), null, shown.channels);
      contextOf(this.canvas).putImageData(band, 0, first);
    }
  }

  // Shows a map in its part of the target: greys, or of each value its colour
  /** @type {(map: { part: Part, greys?: Uint8Array, values?: Chart["values"] }, colour?: (value: number) => [r: number, g: number, b: number]) => void} */
  showMap({ part, values, greys }, colour = grey) {
    this.plain = null;
    this.draw(part, pixels => greys ? paintGreys(pixels, greys) : values && paintValues(pixels, values, colour));
    this.sheet.classList.remove("transparent");
  }

  // Nothing is shown until there is another image
  clear() {
    Object.assign(this, { width: 0, height: 0, part: null, plain: null, fitted: true, crossAt: null });
    this.sheet.hidden = this.cross.hidden = true;
    this.setOutline(null);
    this.setMark(null);
    this.setBox(null);
  }

  /** @type {(image: Image) => void} */
  setSize({ width, height }) {
    this.sheet.hidden = false;
    if (this.width === width && this.height === height) return;
    Object.assign(this, { width, height });
    this.outline.setAttribute("viewBox", `0 0 ${width} ${height}`);
    if (this.fitted) this.fit();
  }

  /** @type {(part: Part, paintOn: (pixels: Uint8ClampedArray) => void) => void} */
  draw(part, paintOn) {
    const { columns, rows } = part, { canvas } = this, made = new ImageData(columns, rows);
    this.part = part;
    if (canvas.width !== columns || canvas.height !== rows) Object.assign(canvas, { width: columns, height: rows });
    paintOn(made.data);
    contextOf(canvas).putImageData(made, 0, 0);
    this.placeCanvas();
  }

  placeCanvas() {
    if (!this.part) return;
    const { left, top, every, columns, rows } = this.part;
    this.place(this.canvas, [left, top, left + columns * every, top + rows * every]);
    this.canvas.classList.toggle("smooth", this.zoom * every < 1);
  }

  // Every how many pixels are as many as the page shows
  leftOut() { return Math.max(1, Math.round(1 / (this.zoom * devicePixelRatio))); }

  // What of the target is in sight: [left, top, right, bottom] in its pixels
  /** @type {() => Rect} */
  visible() {
    const stage = this.stage.getBoundingClientRect(), sheet = this.sheet.getBoundingClientRect();
    const inside = /** @type {(value: number, most: number) => number} */ (value, most) => Math.max(0, Math.min(most, value));
    return [inside(Math.floor((stage.left - sheet.left) / this.zoom), this.width - 1), inside(Math.floor((stage.top - sheet.top) / this.zoom), this.height - 1),
      inside(Math.ceil((stage.right - sheet.left) / this.zoom), this.width), inside(Math.ceil((stage.bottom - sheet.top) / this.zoom), this.height)];
  }

  fit() {
    const { clientWidth, clientHeight } = this.stage;
    const most = Math.min((clientWidth - 32) / this.width, (clientHeight - 32) / this.height);
    this.fitted = true;
    this.setZoom(most >= 1 ? Math.floor(most) : most);
  }

  // A zoom, with the stage's point (x, y) kept where it is
  /** @type {(zoom: number, x?: number, y?: number) => void} */
  zoomTo(zoom, x = this.stage.clientWidth / 2, y = this.stage.clientHeight / 2) {
    const stage = this.stage.getBoundingClientRect(), sheet = this.sheet.getBoundingClientRect();
    const held = [(stage.left + x - sheet.left) / this.zoom, (stage.top + y - sheet.top) / this.zoom];
    this.fitted = false;
    this.setZoom(zoom);
    const moved = this.sheet.getBoundingClientRect();
    this.stage.scrollLeft += moved.left + held[0] * this.zoom - stage.left - x;
    this.stage.scrollTop += moved.top + held[1] * this.zoom - stage.top - y;
  }

  /** @type {(x?: number, y?: number) => void} */
  larger(x = undefined, y = undefined) { this.zoomTo(Math.min(64, this.zoom < 1 ? Math.min(1, this.zoom * 1.5) : this.zoom < 4 ? Math.floor(this.zoom) + 1 : Math.round(this.zoom * 1.5)), x, y); }
  /** @type {(x?: number, y?: number) => void} */
  smaller(x = undefined, y = undefined) { this.zoomTo(Math.max(1 / 64, this.zoom <= 1 ? this.zoom / 1.5 : this.zoom <= 4 ? Math.ceil(this.zoom) - 1 : Math.round(this.zoom / 1.5)), x, y); }

  /** @type {(zoom: number) => void} */
  setZoom(zoom) {
    show({ zoom });
    const { style } = this.sheet;
    style.width = `${this.width * zoom}px`;
    style.height = `${this.height * zoom}px`;
    this.grid.style.backgroundSize = `${zoom}px ${zoom}px`;
    this.grid.hidden = zoom < 10;
    this.placeCanvas();
    this.place(this.cross, this.crossAt);
    this.place(this.scissor, this.scissorAt);
    this.place(this.box, this.boxAt);
    this.setMark(this.markAt);
    this.onZoom(zoom);
    this.onView();
    this.tellMove();
  }

  // Tells of another part in sight, once it stays
  tellMove() {
    clearTimeout(this.moved);
    this.moved = setTimeout(() => this.onMove(this.visible()), 150);
  }

  /** @type {(x: number, y: number) => void} */
  setCross(x, y) { this.place(this.cross, this.crossAt = [x, y, x + 1, y + 1]); }
  /** @type {(rect: Rect | null) => void} */
  setBox(rect) { this.place(this.box, this.boxAt = rect); }
  /** @type {(rect: Rect | null) => void} */
  setScissor(rect) { this.place(this.scissor, this.scissorAt = rect && this.inside(rect)); }

  // A ring round a place between pixels, or none
  /** @type {(at: Point | null) => void} */
  setMark(at) {
    this.markAt = at;
    this.mark.hidden = !at;
    if (at) Object.assign(this.mark.style, { left: `${at[0] * this.zoom}px`, top: `${at[1] * this.zoom}px` });
  }

  // Three corners in pixels, or null
  /** @type {(corners: Point[] | null) => void} */
  setOutline(corners) {
    for (const line of this.outline.children) line.setAttribute("points", corners ? corners.map(corner => corner.join(",")).join(" ") : "");
  }

  /** @type {(rect: Rect) => Rect} */
  inside([left, top, right, bottom]) {
    if (left >= right || top >= bottom) return [0, 0, 0, 0];
    const within = /** @type {(edge: number, most: number) => number} */ (edge, most) => Math.max(-1, Math.min(most + 1, edge));
    return [within(left, this.width), within(top, this.height), within(right, this.width), within(bottom, this.height)];
  }

  /** @type {(element: HTMLElement, rect: Rect | null) => void} */
  place(element, rect) {
    element.hidden = !rect;
    if (!rect) return;
    const [left, top, right, bottom] = rect.map(v => v * this.zoom);
    Object.assign(element.style, { left: `${left}px`, top: `${top}px`, width: `${right - left}px`, height: `${bottom - top}px` });
  }

  listen() {
    const { stage, sheet } = this;
    const isPinched = listenToHands(stage, this);
    /** @type {{ x: number, y: number, left: number, top: number, moved: boolean } | null} */
    let from = null;
    /** @type {(event: PointerEvent) => Place | null} */
    const at = event => {
      const box = sheet.getBoundingClientRect();
      const x = Math.floor((event.clientX - box.left) / this.zoom), y = Math.floor((event.clientY - box.top) / this.zoom);
      return this.part && x >= 0 && y >= 0 && x < this.width && y < this.height ? { x, y } : null;
    };
    stage.addEventListener("pointerdown", event => {
      if (event.button > 1 || event.offsetX > stage.clientWidth + stage.scrollLeft) return;
      from = { x: event.clientX, y: event.clientY, left: stage.scrollLeft, top: stage.scrollTop, moved: false };
    });
    stage.addEventListener("pointermove", event => {
      this.onHover(at(event));
      if (isPinched()) from = null;         // which ends in no click
      if (!from) return;
      const dx = event.clientX - from.x, dy = event.clientY - from.y;
      from.moved ||= Math.hypot(dx, dy) > 4;
      if (from.moved) stage.scrollTo(from.left - dx, from.top - dy);
    });
    addEventListener("pointerup", event => {
      const picked = from && !from.moved && event.button === 0 && at(event);
      from = null;
      if (picked) this.onPick(picked);
    });
    stage.addEventListener("scroll", () => { this.onView(); this.tellMove(); });
    stage.addEventListener("pointerleave", () => this.onHover(null));
    new ResizeObserver(() => {
      if (!this.part) return;
      if (this.fitted) this.fit();
      else this.tellMove();
      this.onView();
    }).observe(stage);
  }
}
