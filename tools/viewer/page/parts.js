// Which part of a large target is fetched: all of it with pixels left out, or what is in sight, whole where that is small enough.

import { isWhole } from "./image.js";
import { everyOf } from "./words.js";

/** @typedef {import("./types").Fetched} Fetched */
/** @typedef {import("./types").Rect} Rect */

/** @type {(wide: number, high: number, most: number) => number} */
const step = (wide, high, most) => Math.ceil(Math.sqrt(wide * high / most));

// The part to ask for so that what is in sight is as sharp as it can be: [left, top, right, bottom], or null for all of the target;
// undefined where what is there will do
/** @type {(image: Fetched, sight: Rect) => Rect | null | undefined} */
export function partFor(image, [left, top, right, bottom]) {
  if (isWhole(image)) return undefined;
  const wanted = step(right - left, bottom - top, image.most), all = step(image.width, image.height, image.most);
  const covered = left >= image.left && top >= image.top
    && right <= image.left + image.columns * image.every && bottom <= image.top + image.rows * image.every;
  if (covered && image.every <= wanted) return undefined;
  if (wanted >= all) return null;
  return wider(image, [left, top, right, bottom], wanted);
}

// With as much round it as doesn't make it coarser, so that a small move asks for nothing
/** @type {(image: Fetched, sight: Rect, wanted: number) => Rect} */
function wider({ width, height, most }, [left, top, right, bottom], wanted) {
  for (const margin of [1, 0.5, 0.25, 0]) {
    const aside = Math.round(margin * (right - left)), above = Math.round(margin * (bottom - top));
    /** @type {Rect} */
    const part = [Math.max(0, left - aside), Math.max(0, top - above), Math.min(width, right + aside), Math.min(height, bottom + above)];
    if (step(part[2] - part[0], part[3] - part[1], most) <= wanted) return part;
  }
  return [left, top, right, bottom];
}

/** @type {(image: import("./types").Image) => string} */
export function tellPart(image) {
  if (isWhole(image)) return "";
  const size = `${image.width} × ${image.height}`;
  if (image.every > 1) return `E${everyOf(image).slice(1)} pixel is shown: the target's ${size} are too many at once. Zoom in for all.`;
  return `Of the target's ${size} pixels those in sight were fetched.`;
}
