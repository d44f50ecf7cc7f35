// Two lists beside each other: what they have in common in its order, and the steps that go through both. As fdb --diff
// and the viewer's server pair events (tools/debugger/aligning.py).

const MOST = 2 ** 22;          // of two lengths' product: above it what stands often in the second list begins no run
const OFTEN = 100, LONG = 200;

// Pairs of places at which both lists have the same, in order. What stands in each of them once is paired first, then
// the longest runs
export function common(one, other) {
  const found = [], gaps = [[0, one.length, 0, other.length]];
  while (gaps.length) {
    let [start, end, first, last] = gaps.pop();
    while (start < end && first < last && one[start] === other[first]) found.push([start++, first++]);
    while (start < end && first < last && one[end - 1] === other[last - 1]) found.push([--end, --last]);
    const pairs = singles(one.slice(start, end), other.slice(first, last)).map(([i, j]) => [start + i, first + j]);
    for (const pair of pairs) found.push(pair);
    if (pairs.length) {
      const borders = [[start - 1, first - 1], ...pairs, [end, last]];
      for (let at = 0; at + 1 < borders.length; at++) {
        const [[i, j], [nextI, nextJ]] = borders.slice(at, at + 2);
        gaps.push([i + 1, nextI, j + 1, nextJ]);
      }
    } else if (start < end && first < last) {
      for (const pair of longest(one, other, [start, end, first, last])) found.push(pair);
    }
  }
  return found.sort(([i], [k]) => i - k);
}

// The places of what both lists have once, of which as many as can stand in order
function singles(one, other) {
  const [ours, theirs] = [one, other].map(placesOf), ends = [], before = new Map(), tops = [];
  for (const [item, [i, ...more]] of ours) {
    const there = theirs.get(item);
    if (more.length || there?.length !== 1) continue;
    const pair = [i, there[0]], length = leastAbove(ends, there[0]);
    before.set(pair, length ? tops[length - 1] : null);
    [ends[length], tops[length]] = [there[0], pair];
  }
  const chain = [];
  for (let pair = tops.at(-1); pair; pair = before.get(pair)) chain.push(pair);
  return chain.reverse();
}

// By item its places, in the order in which items first stand
function placesOf(list) {
  const places = new Map();
  list.forEach((item, at) => places.get(item)?.push(at) ?? places.set(item, [at]));
  return places;
}

// The first place of an ascending list whose number isn't below another
function leastAbove(list, number) {
  let low = 0, high = list.length;
  while (low < high) {
    const middle = low + high >> 1;
    if (list[middle] < number) low = middle + 1;
    else high = middle;
  }
  return low;
}

// The longest run that both have, and so on before it and behind it: Python's difflib
function longest(one, other, [start, end, first, last]) {
  const places = placesOf(other.slice(first, last)), found = [], parts = [[start, end, first, last]];
  if ((end - start) * (last - first) > MOST && last - first >= LONG) {
    const most = Math.floor((last - first) / OFTEN) + 1;
    for (const [item, at] of places) if (at.length > most) places.delete(item);
  }
  while (parts.length) {
    const part = parts.pop(), [i, j, size] = longestRun(one, other, part, { places, first });
    if (!size) continue;
    for (let k = 0; k < size; k++) found.push([i + k, j + k]);
    if (part[0] < i && part[2] < j) parts.push([part[0], i, part[2], j]);
    if (i + size < part[1] && j + size < part[3]) parts.push([i + size, part[1], j + size, part[3]]);
  }
  return found;
}

// Of several the one that begins first, in the first list and then in the second
function longestRun(one, other, [start, end, first, last], { places, first: origin }) {
  let best = [start, first, 0], lengths = new Map();
  for (let i = start; i < end; i++) {
    const longer = new Map();
    for (const at of places.get(one[i]) ?? []) {
      const j = origin + at;
      if (j < first) continue;
      if (j >= last) break;
      const length = (lengths.get(j - 1) ?? 0) + 1;
      longer.set(j, length);
      if (length > best[2]) best = [i - length + 1, j - length + 1, length];
    }
    lengths = longer;
  }
  let [i, j, size] = best;
  while (i > start && j > first && one[i - 1] === other[j - 1]) [i, j, size] = [i - 1, j - 1, size + 1];
  while (i + size < end && j + size < last && one[i + size] === other[j + size]) size++;
  return [i, j, size];
}

// Steps through both lists, each [number in the one, number in the other], counted from 1; 0 where a step goes over
// nothing of a list. Between what is the same those go together that have the same kind
export function aligned(one, other, [kinds, theirKinds]) {
  const steps = [];
  let [i, j] = [0, 0];
  for (const [nextI, nextJ] of [...common(one, other), [one.length, other.length]]) {
    const alike = common(kinds.slice(i, nextI), theirKinds.slice(j, nextJ)).map(([a, b]) => [i + a, j + b]);
    for (const [a, b] of [...alike, [nextI, nextJ]]) {
      while (i < a) steps.push([++i, 0]);
      while (j < b) steps.push([0, ++j]);
      if (a < one.length) steps.push([++i, ++j]);
    }
  }
  return steps;
}
