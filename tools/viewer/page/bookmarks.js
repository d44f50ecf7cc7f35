// Places that the user keeps, by the capture's name.

import { $ } from "./elements.js";
import { readPlace } from "./place.js";

/** @typedef {import("./types").Stand} Stand */

const list = $("bookmarks");
let key = "";

/** @type {() => string[]} */
const kept = () => { try { return JSON.parse(localStorage.getItem(key) ?? "null") ?? []; } catch { return []; } };

/** @type {(name: string) => void} */
export function showBookmarks(name) {
  key = `bookmarks ${name}`;
  draw();
}

// Keeps a place, or forgets it where it is kept already; says which
/** @type {(place: string) => boolean} */
export function keepBookmark(place) {
  const places = kept(), isKept = places.includes(place);
  localStorage.setItem(key, JSON.stringify(isKept ? places.filter(other => other !== place) : [...places, place]));
  draw();
  return !isKept;
}

function draw() {
  const places = kept();
  list.hidden = !places.length;
  list.replaceChildren(new Option("Bookmarks", ""), ...places.map(place => new Option(place.replaceAll("&", " "), place)));
}

/** @type {(lead: (place: Stand) => void) => void} */
export function followBookmarks(lead) {
  list.onchange = () => {
    const place = readPlace(list.value);
    list.value = "";
    list.blur();
    if (place) lead(place);
  };
}
