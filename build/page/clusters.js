// Differing pixels that hang together: one finding each.

const CELL = 4, PATCH = 16;      // pixels in cells of so many that touch, also at a corner, hang together; samples are spread over patches

// Those of a mask, the largest first: { pixels, box }, the pixels' numbers row by row, and left, top, right, bottom, the last two exclusive
export function clustersOf(mask, width) {
  const cells = new Map(), across = Math.ceil(width / CELL) + 2, found = [];     // two more, so that no cell has a neighbour in another row's
  for (let pixel = mask.indexOf(1); pixel >= 0; pixel = mask.indexOf(1, pixel + 1)) {
    const cell = Math.floor(pixel / width / CELL) * across + Math.floor(pixel % width / CELL);
    if (!cells.has(cell)) cells.set(cell, []);
    cells.get(cell).push(pixel);
  }
  for (const [cell] of cells) found.push(clusterFrom(cells, cell, across));
  found.sort((one, two) => two.length - one.length || one[0] - two[0]);
  return found.map(pixels => ({ pixels, box: boxOf(pixels, width) }));
}

// Takes the cells that hang together with one of them out, and gives their pixels
function clusterFrom(cells, start, across) {
  const todo = [start], pixels = [];
  for (const cell of todo) {
    if (!cells.has(cell)) continue;
    pixels.push(cells.get(cell));
    cells.delete(cell);
    for (const aside of [-1, 0, 1]) todo.push(cell + aside - across, cell + aside, cell + aside + across);
  }
  return pixels.flat().sort((one, two) => one - two);
}

function boxOf(pixels, width) {
  const box = [Infinity, Infinity, 0, 0];
  for (const pixel of pixels) {
    const x = pixel % width, y = Math.floor(pixel / width);
    box[0] = Math.min(box[0], x), box[1] = Math.min(box[1], y), box[2] = Math.max(box[2], x + 1), box[3] = Math.max(box[3], y + 1);
  }
  return box;
}

// At most so many of some pixels, from all over them and always the same ones: of one patch after the other, in turn
export function spread(pixels, width, most) {
  const patches = Map.groupBy(pixels, pixel => `${Math.floor(pixel / width / PATCH)} ${Math.floor(pixel % width / PATCH)}`), found = [];
  const orders = [...patches.values()].map(some => some.toSorted((one, two) => scattered(one) - scattered(two)));
  for (let turn = 0; found.length < Math.min(most, pixels.length); turn++) found.push(...orders.flatMap(order => order.slice(turn, turn + 1)));
  return found.slice(0, most);
}

const scattered = pixel => Math.imul(pixel, 2_654_435_761) >>> 0;
