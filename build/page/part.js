// Which pixels of an image are kept: the window cut to the target, and every how many pixels one, which a fifth number of the window may ask for, as the
// viewer's server has it.

export const MOST_PIXELS = 1 << 22;       // those of 2048 by 2048

const kept = (length, every) => Math.ceil(length / every);

export function keptPart(width, height, window, most = MOST_PIXELS) {
  let [left, top, right, bottom, wanted = 1] = window ?? [0, 0, width, height];
  [left, top] = [Math.min(left, width - 1), Math.min(top, height - 1)];
  [right, bottom] = [Math.min(Math.max(right, left + 1), width), Math.min(Math.max(bottom, top + 1), height)];
  let every = Math.max(1, wanted, Math.floor(Math.sqrt(Math.floor((right - left) * (bottom - top) / most))));
  while (kept(right - left, every) * kept(bottom - top, every) > most) every++;
  return { width, height, left, top, every, most, columns: kept(right - left, every), rows: kept(bottom - top, every) };
}
