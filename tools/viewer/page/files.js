// What a file is that was chosen or dropped where another kind is wanted, and what to do with it.

const PICTURE = /\.(png|pam|ppm)$/i, CAPTURE = /\.json$/i;
const MAGIC = [["\x89PNG", "picture"], ["P6", "picture"], ["P7", "picture"], ["RDOC", "rdc"]], LONGEST = 4;

// "picture", "capture", "rdc" (a frame that RenderDoc took), "trace" (of apitrace), or nothing that is known: by how it begins, and by its name
/** @type {(file: File) => Promise<string>} */
export async function kindOf(file) {
  const start = String.fromCharCode(...new Uint8Array(await file.slice(0, LONGEST).arrayBuffer())), known = MAGIC.find(([magic]) => start.startsWith(magic));
  if (known) return known[1];
  if (/\.rdc$/i.test(file.name)) return "rdc";
  if (/\.trace$/i.test(file.name)) return "trace";
  return isNamedAsPicture(file.name) ? "picture" : CAPTURE.test(file.name) ? "capture" : "";
}

/** @type {(name: string) => boolean} */
export const isNamedAsPicture = name => PICTURE.test(name);

/** @type {(name: string) => string} */
const json = name => `${name.replace(/\.[^.]*$/, "")}.json`;
/** @type {(name: string, what: string, tool: string) => string} */
const converted = (name, what, tool) => `${name} is ${what}. Turn it into a capture at a terminal, and open that:\n${tool} ${quoted(name)} > ${quoted(json(name))}`;
/** @type {(name: string) => string} */
const quoted = name => /^[\w.+-]+$/.test(name) && name[0] !== "-" ? name : `'./${name.replaceAll("'", "'\\''")}'`;

// What to do with a file whose kind no reader of captures or pictures takes, or nothing
/** @type {(name: string, kind: string) => string} */
export const adviceOn = (name, kind) => /** @type {Record<string, string>} */ ({
  rdc: converted(name, "a frame that RenderDoc took", "renderdoc_to_capture"),
  trace: converted(name, "a trace of apitrace", "apitrace_to_capture"),
})[kind] ?? "";
