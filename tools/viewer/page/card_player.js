// A capture's events, drawn by the card of this browser with WebGL2. The target's row 0 is WebGL's row 0: y isn't flipped, so what is clockwise on
// the target is counter-clockwise to WebGL, and an edge at lower y is the upper one to both.

import { programOf, Target } from "./card_target.js";
import { AT_START, isState } from "./setters.js";
import { snap } from "./snapping.js";

/** @typedef {import("./types").Blend} Blend */
/** @typedef {import("./types").CaptureEvent} CaptureEvent */
/** @typedef {import("./types").Clear} Clear */
/** @typedef {import("./types").Depth} Depth */
/** @typedef {import("./types").DepthClear} DepthClear */
/** @typedef {import("./types").Draw} Draw */
/** @typedef {import("./types").Factor} Factor */
/** @typedef {import("./types").Raster} Raster */
/** @typedef {import("./types").Scissor} Scissor */
/** @typedef {import("./types").States} States */
/** @typedef {import("./types").Vertex} Vertex */

/** @type {Record<string, number>} */
const FACTORS = {
  ZERO: 0, ONE: 1, SRC_COLOR: 0x300, INV_SRC_COLOR: 0x301, SRC_ALPHA: 0x302, INV_SRC_ALPHA: 0x303, DEST_ALPHA: 0x304, INV_DEST_ALPHA: 0x305, DEST_COLOR: 0x306,
  INV_DEST_COLOR: 0x307, BLEND_FACTOR: 0x8001, INV_BLEND_FACTOR: 0x8002,
};
/** @type {Record<string, number>} */
const OPERATIONS = { ADD: 0x8006, SUBTRACT: 0x800a, REV_SUBTRACT: 0x800b, MIN: 0x8007, MAX: 0x8008 };
const FUNCTIONS = ["NEVER", "LESS", "EQUAL", "LESS_EQUAL", "GREATER", "NOT_EQUAL", "GREATER_EQUAL", "ALWAYS"];
const DEEPEST = 65_535, ROOM = 4096;         // the deepest depth; the least side of the viewport, in which nothing near the target is clipped

// Shaders of flat and of shaded triangles
/** @type {(kind: string) => string} */
const vertexShader = kind => `#version 300 es
precision highp float; layout(location = 0) in vec3 place; layout(location = 1) in vec4 given; ${kind} out vec4 colour;
void main() { gl_Position = vec4(place, 1.0); colour = given; }`;
/** @type {(kind: string) => string} */
const fragmentShader = kind => `#version 300 es
precision highp float; ${kind} in vec4 colour; layout(location = 0) out vec4 drawn;
void main() { drawn = colour; }`;

/** @type {(number: number) => number} */
const powerFrom = number => 2 ** Math.ceil(Math.log2(number));

export class Player {
  box = [0, 0, 0, 0];                // of the viewport
  /** @type {States} */ states = { ...AT_START };

  constructor() {
    const gl = document.createElement("canvas").getContext("webgl2", { antialias: false, depth: false, powerPreference: "high-performance" });
    if (!gl) throw new Error("this browser draws no WebGL2 here");
    this.gl = gl;
    this.target = new Target(gl);
    const drawing = /** @param {string} kind */ kind => programOf(gl, vertexShader(kind), fragmentShader(kind));
    this.programs = { flat: drawing("flat"), linear: drawing("smooth") };
    gl.bindVertexArray(gl.createVertexArray());
    this.buffers = [0, 1, 2].map(() => gl.createBuffer());
    for (const [at, size, kind, isWhole] of /** @type {[number, number, number, boolean][]} */ ([[0, 3, gl.FLOAT, false], [1, 4, gl.UNSIGNED_BYTE, true]])) {
      gl.bindBuffer(gl.ARRAY_BUFFER, this.buffers[at]);
      gl.vertexAttribPointer(at, size, kind, isWhole, 0, 0);
      gl.enableVertexAttribArray(at);
    }
    gl.bindBuffer(gl.ELEMENT_ARRAY_BUFFER, this.buffers[2]);
    gl.disable(gl.DITHER);
    gl.pixelStorei(gl.UNPACK_ALIGNMENT, 1);       // rows of depths of an odd width
  }

  // What the card says that it is
  named() {
    const { gl } = this, names = gl.getExtension("WEBGL_debug_renderer_info"), said = /** @param {number} name */ name => gl.getParameter(name);
    return { renderer: said(names ? names.UNMASKED_RENDERER_WEBGL : gl.RENDERER), version: said(gl.VERSION), bits: said(gl.SUBPIXEL_BITS) };
  }

  close() { this.gl.getExtension("WEBGL_lose_context")?.loseContext(); }

  check() {
    const error = this.gl.getError();
    if (error && this.gl.isContextLost()) throw new Error("the card was lost while it drew");
    if (error) throw new Error(`the card's driver notes the error 0x${error.toString(16)} of WebGL`);
  }

  // A fresh target, perhaps of another size
  /** @type {(width: number, height: number) => void} */
  restart(width, height) {
    const { gl, target } = this;
    if (target.width !== width || target.height !== height) target.resize(width, height);
    const most = powerFrom(Math.min(...gl.getParameter(gl.MAX_VIEWPORT_DIMS)) + 1) / 2;
    const side = Math.min(most, Math.max(ROOM, powerFrom(width), powerFrom(height)));
    this.box = [-Math.min(side / 2, side - powerFrom(width)), -Math.min(side / 2, side - powerFrom(height)), side, side];
    this.states = { ...AT_START };
    this.setAll();
    if (String(gl.getParameter(gl.VIEWPORT)) !== String(this.box)) throw new Error(`the card makes another viewport of ${this.box.join(" ")}`);
    this.apply({ kind: "clear", color: [0, 0, 0, 0] });
    this.apply({ kind: "depth_clear", depth: DEEPEST });
  }

  /** @type {(event: CaptureEvent) => void} */
  apply(event) {
    if (isState(event)) {
      this.states = { ...this.states, [event.kind]: event };
      this.set(event);
    } else if (event.kind === "clear") this.clear(event);
    else if (event.kind === "depth_clear") this.depth_clear(event);
    else if (event.kind === "draw") this.draw(event);
  }

  colours() { return this.target.colours(); }

  depths() {
    const found = this.target.depths();
    this.setAll();
    return found;
  }

  /** @type {(colours: Uint8Array, depths: Uint16Array | null) => void} */
  put(colours, depths) { this.target.put(colours, depths); }

  // ---- States
  setAll() {
    const [left, top, width, height] = this.box;
    this.gl.viewport(left, top, width, height);
    for (const state of Object.values(this.states)) this.set(state);
  }

  /** @type {(state: States[keyof States]) => void} */
  set(state) {
    if (state.kind === "raster") this.raster(state);
    else if (state.kind === "scissor") this.scissor(state);
    else if (state.kind === "blend") this.blend(state);
    else if (state.kind === "factor") this.factor(state);
    else this.depth(state);
  }

  /** @type {(what: number, isOn: boolean) => void} */
  turn(what, isOn) { this.gl[isOn ? "enable" : "disable"](what); }

  /** @type {(state: Raster) => void} */
  raster({ cull, front_ccw: isCounter, scissor }) {
    const { gl } = this;
    this.turn(gl.CULL_FACE, cull !== "none");
    if (cull !== "none") gl.cullFace(cull === "front" ? gl.FRONT : gl.BACK);
    gl.frontFace(isCounter ? gl.CW : gl.CCW);
    this.turn(gl.SCISSOR_TEST, scissor);
  }

  /** @type {(state: Scissor) => void} */
  scissor({ rect }) {
    const { width, height } = this.target, [left, top, right, bottom] = rect.map((edge, i) => Math.min(Math.max(edge, 0), i % 2 ? height : width));
    this.gl.scissor(left, top, Math.max(0, right - left), Math.max(0, bottom - top));
  }

  /** @type {(state: Blend) => void} */
  blend({ enable, rgb, alpha, mask }) {
    const { gl } = this;
    this.turn(gl.BLEND, enable);
    gl.blendFuncSeparate(FACTORS[rgb[0]], FACTORS[rgb[1]], FACTORS[alpha[0]], FACTORS[alpha[1]]);
    gl.blendEquationSeparate(OPERATIONS[rgb[2]], OPERATIONS[alpha[2]]);
    const [red, green, blue, own] = [1, 2, 4, 8].map(bit => (mask & bit) !== 0);
    gl.colorMask(red, green, blue, own);
  }

  /** @type {(state: Factor) => void} */
  factor({ color }) {
    const [red, green, blue, alpha] = color.map(byte => byte / 255);
    this.gl.blendColor(red, green, blue, alpha);
  }

  /** @type {(state: Depth) => void} */
  depth({ enable, write, func }) {
    const { gl } = this;
    this.turn(gl.DEPTH_TEST, enable);
    gl.depthMask(write);
    gl.depthFunc(gl.NEVER + FUNCTIONS.indexOf(func));
  }

  // ---- Clears and draws
  // WebGL's clears obey scissor and masks, a capture's don't
  /** @type {(event: Clear) => void} */
  clear({ color }) {
    const { gl, states } = this;
    gl.disable(gl.SCISSOR_TEST);
    gl.colorMask(true, true, true, true);
    gl.clearBufferfv(gl.COLOR, 0, color.map(byte => byte / 255));
    this.set(states.raster);
    this.set(states.blend);
  }

  /** @type {(event: DepthClear) => void} */
  depth_clear({ depth }) {
    const { gl, states } = this;
    gl.disable(gl.SCISSOR_TEST);
    gl.depthMask(true);
    gl.clearBufferfv(gl.DEPTH, 0, [depth / DEEPEST]);
    this.set(states.raster);
    this.set(states.depth);
  }

  /** @type {(event: Draw) => void} */
  draw({ interp, vertices, indices = null }) {
    const { gl } = this, order = indices ?? vertices.map((_, i) => i), count = Math.floor(order.length / 3) * 3, isFlat = interp === "flat";
    if (!count) return;
    gl.useProgram(isFlat ? this.programs.flat : this.programs.linear);
    this.fill(gl.ARRAY_BUFFER, 0, this.places(vertices));
    this.fill(gl.ARRAY_BUFFER, 1, Uint8Array.from(vertices.flatMap(({ color }) => color)));
    // WebGL takes a flat triangle's last corner: its first is turned there
    this.fill(gl.ELEMENT_ARRAY_BUFFER, 2, Uint32Array.from({ length: count }, (_, i) => order[isFlat ? i - i % 3 + (i + 1) % 3 : i]));
    gl.drawElements(gl.TRIANGLES, count, gl.UNSIGNED_INT, 0);
  }

  // The corners in clip space: half the viewport from its middle is 1
  /** @type {(vertices: Vertex[]) => Float32Array} */
  places(vertices) {
    const [left, top, width, height] = this.box, [x, y] = [left + width / 2, top + height / 2];
    return Float32Array.from(vertices.flatMap(it => [(snap(it.x) / 256 - x) * 2 / width, (snap(it.y) / 256 - y) * 2 / height, 2 * (it.z ?? 0) / DEEPEST - 1]));
  }

  /** @type {(kind: number, number: number, data: Uint8Array | Uint32Array | Float32Array) => void} */
  fill(kind, number, data) {
    this.gl.bindBuffer(kind, this.buffers[number]);
    this.gl.bufferData(kind, data, this.gl.STREAM_DRAW);
  }
}
