// Why framedbg refuses a capture: which member of which event, and where in the text, in the words of framedbg-explain (tools/explaining/verdict.py).

import { decoded, lineAndColumn, locate, Malformed, read } from "./json_text.js";
import { originOf } from "./origin.js";
import { check, Wrong } from "./rules.js";
import { printable } from "./printable.js";

const MOST_BYTES = 67_108_864, MOST_NAME = 60, MOST_NUMBER = 2n ** 64n;      // of a capture; of a call's name that is shown, and its number is below
const MOST_ORIGIN = 160;               // characters of what else is told of where an event comes from
const OF_ONE = { vertices: "vertex", indices: "index" };

// What an ended run said of a capture, in words of two lines; what isn't a refusal stays as it is, and where both don't agree framedbg's word alone counts
export function explained(said, bytes) {
  const [, refused] = said.match(/capture refused (\d+ .*?)(?: \(status \d+\))?$/) ?? [];
  if (!refused) return said;
  const { verdict, why } = verdictOn(bytes);
  return verdict === refused ? `refused, ${refused}\n${printable(why)}` : `refused, ${refused}`;
}

// framedbg's own word for a capture of these bytes, and the explanation
export function verdictOn(bytes) {
  if (bytes.length > MOST_BYTES) return { verdict: "1 too long", why: `it has more than ${MOST_BYTES} bytes` };
  let text = "", capture;
  try {
    text = decoded(bytes);
    capture = read(text);
    check(capture);
  } catch (fault) {
    if (fault instanceof Malformed) return { verdict: "2 not json", why: `${place(text || new TextDecoder("utf-8", { ignoreBOM: true }).decode(bytes), fault.at)}: ${fault.message}` };
    if (fault instanceof Wrong) return { verdict: fault.verdict, why: `${place(text, locate(text, fault.path))}: ${named(capture, fault)}${fault.message}` };
    throw fault;
  }
  return { verdict: "accepted", why: "" };
}

function place(text, at) {
  const [line, column] = lineAndColumn(text, at);
  return `line ${line}, column ${column}`;
}

const plain = value => value instanceof Map ? Object.fromEntries([...value].map(([name, inner]) => [name, plain(inner)])) : Array.isArray(value) ? value.map(plain) : value;

// The call that an event comes from, where it says one, and what else it tells of that: " of call 363 glDrawElements() (reads texture 35 lit)"
function call(event) {
  const source = event instanceof Map ? event.get("source") : null, [number, name] = ["event", "name"].map(word => source instanceof Map ? source.get(word) : null);
  const isNumber = (typeof number === "number" || typeof number === "bigint") && number >= 0 && number < MOST_NUMBER;
  const words = [...(isNumber ? [String(number)] : []), ...(typeof name === "string" && name ? [[...name.slice(0, 2 * MOST_NAME)].slice(0, MOST_NAME).join("")] : [])];
  const more = source instanceof Map ? [...originOf(plain(source)).filter(line => !line.startsWith("call ")).join("; ")].slice(0, MOST_ORIGIN).join("") : "";
  return `${words.length ? ` of call ${words.join(" ")}` : ""}${more && ` (${more})`}`;
}

// The way to the member in words: event 5 (draw) of call 363 glDrawElements(), vertex 3, color 0
function named(capture, { fault, path: [first, number, ...rest] }) {
  const words = [], steps = number === undefined ? [first].filter(step => step !== undefined) : rest;
  if (number !== undefined) {
    const event = capture.get("events")[number], kind = event instanceof Map ? event.get("kind") : null;
    words.push(`event ${number + 1}${typeof kind === "string" && fault === 8 ? ` (${kind})` : ""}${call(event)}`);
  }
  while (steps.length) {
    const name = steps.shift();
    words.push(typeof steps[0] === "number" ? `${OF_ONE[name] ?? name} ${steps.shift()}` : name);
  }
  return words.length ? `${words.join(", ")}: ` : "";
}
