// What the histories of wrong pixels say of events: who drew them last, who drew over what is wanted, and by which state. Each says so much:

import { STATES } from "./capture.js";

const OVER = 3, HIDDEN = 3, HIDER = 4, BLENDED = 3, LAST = 1, STATE = 0.9, TOUCHED = 0.2;
const BY_VERDICT = { scissored: ["raster", "scissor"], culled: ["raster"], discarded: [], depthfailed: ["depth", "depth_clear"] };

// Suspects, the strongest first: { event, weight, clusters }. A sample is { x, y, wanted, entries, cluster }
export function suspectsOf(capture, samples, isNear) {
  const found = new Map(), said = samples.flatMap(sample => [...facts(capture, sample, isNear)].map(fact => [sample, ...fact]));
  for (const [sample, event, weight] of said) {
    const suspect = found.get(event) ?? { event, weight: 0, clusters: new Set() };
    suspect.weight += weight;
    suspect.clusters.add(sample.cluster);
    found.set(event, suspect);
  }
  return [...found.values()].sort((one, two) => two.weight - one.weight || one.event - two.event);
}

// [event, weight] of all that a pixel says
function* facts(capture, { wanted, entries }, isNear) {
  const drawn = entries.filter(({ verdict }) => verdict === "drawn"), right = drawn.findLastIndex(({ after }) => isNear(after, wanted));
  // What is discarded by the draw's own picture has no colour that could be wanted
  for (const entry of entries) if (entry.verdict !== "drawn") yield* hidden(capture, entry, entry.verdict !== "discarded" && isNear(entry.source, wanted));
  if (right >= 0 && right + 1 < drawn.length) yield [drawn[right + 1].event, OVER];
  for (const [i, entry] of drawn.entries()) {
    const isLast = i === drawn.length - 1, isBlended = isNear(entry.source, wanted) && !isNear(entry.after, wanted);
    const weight = part => !isLast ? TOUCHED : part === "blend" && isBlended ? BLENDED : STATE;
    yield [entry.event, isLast ? LAST : TOUCHED];
    if (capture.kind(entry.event) === "draw") yield* setters(capture, entry.event, STATES, weight);
  }
}

function* hidden(capture, { event, verdict }, isWanted) {
  yield [event, isWanted ? HIDDEN : TOUCHED];
  yield* setters(capture, event, BY_VERDICT[verdict], () => isWanted ? HIDER : TOUCHED);
}

function* setters(capture, event, parts, weight) {
  for (const part of parts) {
    const by = capture.setter(event, part);
    if (by) yield [by, weight(part)];
  }
}
