// Elements of the page: found, and made.

/** @typedef {import("./types").Colour} Colour */
/** @typedef {import("./types").Elements} Elements */

/** @template {string} Id @param {Id} id @returns {Id extends keyof Elements ? Elements[Id] : HTMLElement} */
export const $ = id => /** @type {any} */ (document.getElementById(id));

/** @type {(selector: string) => NodeListOf<HTMLElement>} */
export const all = selector => document.querySelectorAll(selector);

/** @type {(canvas: HTMLCanvasElement) => CanvasRenderingContext2D} */
export const contextOf = canvas => /** @type {CanvasRenderingContext2D} */ (canvas.getContext("2d"));

/** @template {string} Kind @param {Kind} kind @param {string} className @param {...(Node | string)} inside @returns {Kind extends keyof HTMLElementTagNameMap ? HTMLElementTagNameMap[Kind] : HTMLElement} */
export function element(kind, className = "", ...inside) {
  const made = document.createElement(kind);
  if (className) made.className = className;
  made.append(...inside);
  return /** @type {any} */ (made);
}

// A swatch of a colour, its alpha in the right half over a chequerboard
/** @type {(colour: Colour) => HTMLElement} */
export function swatch({ r, g, b, a }) {
  const made = element("span", "swatch");
  made.style.setProperty("--opaque", `rgb(${r} ${g} ${b})`);
  made.style.setProperty("--seen", `rgb(${r} ${g} ${b} / ${a / 255})`);
  made.title = `${r} ${g} ${b} ${a}`;
  return made;
}
