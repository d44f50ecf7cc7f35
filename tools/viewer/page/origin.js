// What the member `source` of an event tells of the program that it comes from, as lines; tools/origins.py says the same. Anything may stand in a file.

import { $, element } from "./elements.js";

/** @typedef {import("./types").Source} Source */

const MOST_LISTED = 16, MOST_NAME = 200;        // of calls, textures and places of a callstack; characters of a name
const MEMBERS = ["set_by", "shaders", "textures", "reads", "callstack"];

/** @type {(value: unknown) => value is number} */
const isNumber = value => typeof value === "number" && Number.isInteger(value) && value >= 0;
/** @type {(value: unknown) => any[]} */
const listed = value => Array.isArray(value) ? value.slice(0, MOST_LISTED) : [];
/** @type {(text: unknown) => string} */
const name = text => typeof text === "string" ? [...text].slice(0, MOST_NAME).join("") : "";
/** @type {(number: unknown, text: unknown) => string} */
const words = (number, text) => `${number} ${name(text)}`.trimEnd();
/** @type {(text: string) => string} */
const filled = text => text.replaceAll("  ", " ").replaceAll(" ,", ",").trimEnd();

// The members that tell of it, of an event as it stands in the file
/** @type {(source: any) => Partial<Source>} */
export const toldOf = source => Object.fromEntries(MEMBERS.filter(member => member in source).map(member => [member, source[member]]));

/** @type {(source?: Partial<Source>) => string[]} */
export function originOf(source) {
  if (!source) return [];
  const reads = new Map(listed(source.reads).filter(one => isNumber(one?.target)).map(one => [one.target, one])), { shaders } = source;
  return [
    ...(isNumber(source.event) ? [`call ${words(source.event, source.name)}`] : []),
    ...listed(source.set_by).filter(call => Array.isArray(call) && call.length === 2 && isNumber(call[0])).map(call => `set by ${words(call[0], call[1])}`),
    ...(shaders && typeof shaders === "object" && !Array.isArray(shaders) ? Object.entries(shaders).slice(0, MOST_LISTED) : []).map(([stage, shader]) => `${name(stage)} shader ${name(shader)}`),
    ...listed(source.textures).filter(one => isNumber(one?.id)).map(one => textureOf(one, reads.get(one.id))),
    ...listed(source.callstack).map(place => `at ${name(place)}`),
  ];
}

// reads texture 35 "lit", 320 by 240, made by target 35, at event 21
/** @type {(texture: any, made: any) => string} */
function textureOf({ id, name: called, width, height }, made) {
  const size = isNumber(width) && isNumber(height) ? `, ${width} by ${height}` : "";
  return filled(`reads texture ${id} ${name(called)}${size}${isNumber(made?.event) ? `, made by target ${made.target}, at event ${made.event}` : ""}`);
}

// Below the state: of an event, and the ways to what it reads
/** @type {(source: Source | undefined, ways: HTMLElement[]) => void} */
export function drawOrigin(source, ways) {
  const list = $("origin"), lines = [...originOf(source), ...ways];
  list.hidden = !lines.length;
  list.replaceChildren(...lines.map(line => element("li", "", line)));
}
