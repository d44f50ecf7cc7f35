// What the events of a capture are, by the members that framedbg reads, and by its own words for them.

const MEMBERS = {              // of each kind
  clear: ["color"], raster: ["cull", "front_ccw", "scissor"], scissor: ["rect"],
  blend: ["enable", "rgb", "alpha", "mask"], factor: ["color"],
  draw: ["interp", "vertices", "indices", "picture"], marker: ["name"],
  depth: ["enable", "write", "func"], depth_clear: ["depth"],
};
const BOX = ["left", "top", "width", "height", "texels", "holes"];       // of a picture

const chosen = (object, names) => {
  return Object.fromEntries(names.filter(name => name in object).map(name => [name, object[name]]));
};
const isSame = (one, other) => JSON.stringify(one) === JSON.stringify(other);

export class Contents {
  // Of a file that framedbg has read: so it is a capture
  constructor(bytes) {
    const { version, width, height, events } = JSON.parse(new TextDecoder().decode(bytes));
    Object.assign(this, { version, size: [width, height], events, kinds: events.map(({ kind }) => kind) });
    this.keys = events.map((_, i) => JSON.stringify(this.members(i + 1)));
  }

  // Those of an event that framedbg reads
  members(number) {
    const event = this.events[number - 1], read = chosen(event, ["kind", ...MEMBERS[event.kind]]);
    if (event.kind !== "draw") return read;
    const isPainted = event.interp === "picture";
    const corner = ["x", "y", ...this.version > 1 ? ["z"] : [], ...isPainted ? [] : ["color"]];
    read.vertices = event.vertices.map(vertex => chosen(vertex, corner));
    delete read.picture;
    return isPainted ? { ...read, picture: chosen(event.picture, BOX) } : read;
  }

  // An event as framedbg tells it in a list
  told(number) {
    const { kind, ...members } = this.members(number);
    const { indices, vertices, interp } = members;
    if (kind === "draw") return `draw ${Math.floor((indices ?? vertices).length / 3)} ${interp}`;
    const values = MEMBERS[kind].flatMap(name => members[name]);
    return [kind, ...values.map(value => typeof value === "boolean" ? +value : value)].join(" ");
  }
}

// The names of the members in which two events of a kind differ; of vertices how many do
export function unlike(one, other) {
  const names = MEMBERS[one.kind].filter(name => !isSame(one[name], other[name]));
  const told = names.map(name => name === "vertices" ? verticesUnlike(one[name], other[name]) : name);
  return told.join(", ") || "the same";
}

function verticesUnlike(one, other) {
  const vertices = `${one.length} ${one.length === 1 ? "vertex" : "vertices"}`;
  if (one.length !== other.length) return `${vertices}, and then ${other.length}`;
  return `${one.filter((vertex, i) => !isSame(vertex, other[i])).length} of ${vertices}`;
}
