// The columns beside the picture: dragged, moved by keys, and folded by a double click. What the user chose is kept.

import { all } from "./elements.js";

const KEY = "columns", LEAST = 140, STEP = 20;      // pixels of the page: less than the least is folded
const main = all("main")[0];
/** @type {Record<string, number | null>} */
const widths = (() => { try { return JSON.parse(localStorage.getItem(KEY) ?? "null") ?? {}; } catch { return {}; } })();

/** @type {(side: string, width: number | null) => void} */
function set(side, width) {
  widths[side] = width === null ? null : width < LEAST ? 0 : Math.min(width, Math.round(innerWidth * 0.45));
  apply();
  localStorage.setItem(KEY, JSON.stringify(widths));
}

function apply() {
  for (const side of ["left", "right"]) {
    const width = widths[side] ?? null;
    main.style[width === null ? "removeProperty" : "setProperty"](`--${side}`, `${width}px`);
    main.classList.toggle(`no-${side}`, width === 0);
  }
}

export function dragColumns() {
  for (const bar of all(".splitter")) {
    const { side = "" } = bar.dataset, sign = side === "left" ? 1 : -1, column = /** @type {Element} */ (side === "left" ? bar.previousElementSibling : bar.nextElementSibling);
    bar.onpointerdown = down => {
      const was = column.getBoundingClientRect().width;
      down.preventDefault();
      bar.setPointerCapture(down.pointerId);
      bar.onpointermove = move => set(side, was + sign * (move.clientX - down.clientX));
      bar.onpointerup = () => { bar.onpointermove = null; };
    };
    bar.ondblclick = () => set(side, widths[side] === 0 ? null : 0);
    bar.onkeydown = event => {
      const by = event.key === "ArrowLeft" ? -STEP : event.key === "ArrowRight" ? STEP : 0, width = column.getBoundingClientRect().width;
      if (event.key === "Enter") set(side, widths[side] === 0 ? null : 0);
      else if (by) set(side, width === 0 ? LEAST : width + sign * by);
      else return;
      event.preventDefault();
      event.stopPropagation();
    };
  }
  apply();
}
