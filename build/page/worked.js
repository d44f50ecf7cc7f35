// Colours of a clear or a blend factor that are worked out from the wrong pixels: what is tried then is drawn as any other change.

import { sumOf } from "./sum.js";

const MOST_VALUES = 4, ASKED = 24;       // of several colours that are wanted; pixels with which a colour is worked out

const four = ({ r, g, b, a }) => [r, g, b, a];
const named = ([r, g, b, a]) => ({ r, g, b, a });

// For an event's colour those that the wrong pixels ask for
export function valuesFor(it, number) {
  const was = it.capture.event(number).color;
  return [...(it.capture.kind(number) === "clear" ? wantedOf(it, number, was) : []), ...allowed(it, number, was)];
}

// The colours that are wanted the most where a clear is what was drawn last
function wantedOf({ capture, samples, channels }, number, was) {
  const seen = new Map();
  for (const { wanted, entries } of samples) {
    if (entries.findLast(({ verdict }) => verdict === "drawn")?.event !== number) continue;
    const colour = four(wanted).map((value, i) => channels.includes("rgba"[i]) ? value : was[i]).join(" ");
    seen.set(colour, (seen.get(colour) ?? 0) + 1);
  }
  return [...seen].sort(([, one], [, two]) => two - one).slice(0, MOST_VALUES).map(([colour]) => colour.split(" ").map(Number));
}

// In each channel the value nearest to what it was with which every pixel comes out as wanted; none where a channel has no such value
function allowed(it, number, was) {
  const { capture, samples, channels, isNear } = it, colour = [...was];
  const some = samples.slice(0, ASKED).filter(({ entries }) => entries.some(({ event }) => event === number || capture.setter(event, "factor") === number));
  if (!some.length) return [];
  for (const channel of channels) {
    const i = "rgba".indexOf(channel), made = (entries, value) => lastColour(capture, entries, number, was.with(i, value))[channel];
    const values = [...Array(256).keys()].filter(value => some.every(({ entries, wanted }) => isNear({ ...wanted, [channel]: made(entries, value) }, wanted)));
    if (!values.length) return [];
    colour[i] = values.reduce((best, value) => Math.abs(value - was[i]) < Math.abs(best - was[i]) ? value : best);
  }
  return [colour];
}

// A pixel's colour in the end where a clear or a blend factor has another one
function lastColour(capture, entries, number, colour) {
  let there = named([0, 0, 0, 0]);
  for (const { event, triangle, verdict, source } of entries) {
    if (verdict !== "drawn" || capture.kind(event) === "depth_clear") continue;
    if (capture.kind(event) === "clear") {
      there = event === number ? named(colour) : source;
      continue;
    }
    const factor = capture.setter(event, "factor") === number ? colour : capture.state(event, "factor").color;
    const { enable, ...blend } = capture.state(event, "blend");
    const lines = sumOf({ event, triangle, verdict, source, before: there, after: there }, { ...blend, blend: enable, factor: named(factor) });
    there = named(lines.map(([, , value]) => value));
  }
  return there;
}
