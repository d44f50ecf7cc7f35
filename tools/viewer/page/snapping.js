// A coordinate in 1/65536 pixel, snapped to 1/256: the nearest, ties to the even one
/** @type {(value: number) => number} */
export function snap(value) {
  const low = Math.floor(value / 256), rest = value - low * 256;
  return low + (rest > 128 || rest === 128 && low & 1 ? 1 : 0);
}
