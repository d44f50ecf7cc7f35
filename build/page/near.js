// The name that was meant perhaps, as Python's difflib finds the closest one.

const LEAST = 0.6, MOST_NAMES = 1000, MOST_NAME = 64;      // how like they must be; names that are looked at, from the first on; letters of a misspelt one

// " (did you mean LESS?)", or nothing
export function near(value, allowed) {
  if (typeof value !== "string" || [...value.slice(0, 2 * MOST_NAME + 2)].length > MOST_NAME) return "";
  const names = new Map();
  for (const name of allowed) {
    if (names.size === MOST_NAMES) break;
    names.set(name.toLowerCase(), name);
  }
  let best = null;
  for (const [lower, name] of names) {
    const like = likeness([...lower], [...value.toLowerCase()]);
    if (like >= LEAST && (!best || like > best.like || (like === best.like && lower > best.lower))) best = { like, lower, name };
  }
  return best ? ` (did you mean ${best.name}?)` : "";
}

// Twice the letters of all matching blocks, of the letters of both
const likeness = (one, two) => one.length + two.length ? 2 * matching(one, two, [0, one.length, 0, two.length]) / (one.length + two.length) : 1;

// The longest block that both have, and those before and behind it
function matching(one, two, [left, right, top, bottom]) {
  const [at, from, size] = longest(one, two, [left, right, top, bottom]);
  return size ? size + matching(one, two, [left, at, top, from]) + matching(one, two, [at + size, right, from + size, bottom]) : 0;
}

function longest(one, two, [left, right, top, bottom]) {
  let best = [left, top, 0], lengths = new Map();
  for (let i = left; i < right; i++) {
    const next = new Map();
    for (let j = top; j < bottom; j++) {
      if (one[i] !== two[j]) continue;
      const size = (lengths.get(j - 1) ?? 0) + 1;
      next.set(j, size);
      if (size > best[2]) best = [i - size + 1, j - size + 1, size];
    }
    lengths = next;
  }
  return best;
}
