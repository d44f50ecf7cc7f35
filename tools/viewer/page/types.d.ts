// What the page's scripts take and give, for the compiler of types alone (checks/check_python): no browser is sent this.

export interface Colour { r: number; g: number; b: number; a: number }
export type Channel = keyof Colour;
export type Channels = Record<Channel, boolean>;
export interface Place { x: number; y: number }
export type Rect = [left: number, top: number, right: number, bottom: number];
export type Four = [number, number, number, number];
export type Point = [x: number, y: number];

// ---- Replies (docs/FORMATS.md)
export interface Reply { text: string; lines?: string[]; left_out?: number; image?: Fetched }
export interface FrameEvent { number: number; on: boolean; kind: string; words: string[]; name?: string; colour?: Colour }
export interface Pixel { colour: Colour; depth: number | null }
export interface Entry {
  event: number; triangle: number | null; verdict: string;
  source: Colour; before: Colour; after: Colour;
  depth?: { source: number; before: number; after: number };
}
export interface Blending { blend: boolean; rgb: string[]; alpha: string[]; mask: number; factor: Colour }
export interface State extends Blending { cull: string; ccw: boolean; scissor: boolean; rect: Rect; depth?: { enable: boolean; write: boolean; func: string } }
// The call of a captured program that an event comes from, and what else is told of it (origin.js); anything may stand in a file
export interface Source { event: number; name: string; until?: number; set_by?: any; shaders?: any; textures?: any; reads?: any; callstack?: any }

// ---- Images (image.js)
export interface Part { left: number; top: number; every: number; columns: number; rows: number }
export interface Image extends Part {
  width: number; height: number; bytes: Uint8Array; name?: string; hasAlpha?: boolean;
  most?: number; number?: number; delta?: { base: number; bands: Band[] };
}
export interface Fetched extends Image { most: number; number: number; base?: number; bands?: Band[] }
export type Band = [row: number, count: number];
export interface Difference { mask: Uint8Array; by: Uint8Array; count: number; most: number; left: number; top: number; right: number; bottom: number; every: number; whole: boolean }
// Depths, verdicts or overdraw of a part (maps.js)
export type MapLook = "depth" | "fate" | "overdraw";
export interface Chart { look: MapLook; part: Part; values: Uint16Array | Uint32Array; greys?: Uint8Array; near?: number; far?: number; most?: number }
export type Range = [black: number, white: number];

// ---- A place in the frame (place.js): where it stands, the chosen pixel, and the events that are off
export interface Stand { at: number; pixel: Place | null; off: Set<number> }

// ---- What is shown (shown.js)
export type Look = "after" | "before" | "changed" | "compared" | "other" | "mended" | MapLook;
export type Whose = "with" | "next";
export interface Shown {
  readonly before: Image | null; readonly after: Fetched | null;                  // the images before the last event and after it
  readonly isDragged: boolean;                                                    // the image after it has pixels left out, as a hand is on its way
  readonly states: { readonly [whose in Whose]: State | null };                   // that the last event was drawn with, and that the next one will meet
  readonly hasDepth: boolean;
  readonly map: Chart | null;                                                     // depths, verdicts or overdraw here, where they are wanted
  readonly pixel: Place | null; readonly value: Pixel | null;                     // the chosen place, and its colour and depth here
  readonly entries: readonly Entry[]; readonly writers: ReadonlySet<number>;      // its history in the whole frame, and the events that wrote it
  readonly outlined: Entry | null; readonly corners: Point[] | null;              // the entry whose triangle is outlined
  readonly look: Look; readonly whose: Whose;                                   // which picture is chosen, and whose state
  readonly other: Image | null; readonly mended: Image | null;                    // what is compared with, and what a change makes of the frame
  readonly zoom: number; readonly channels: Readonly<Channels>;
}
// What has become another one: all events, the image and states of a position, a pixel's history, an entry's triangle, a map
export type What = "events" | "position" | "history" | "outline" | "map";

// ---- The capture's file
// [x, y, depth, colour] in 1/65536 pixel, and indices; a picture has its box in pixels
export interface Mesh { interp: string; vertices: [number, number, number | null, Four | null][]; indices?: number[] | null; picture?: [left: number, top: number, width: number, height: number] }
export type Change = { set: number; members: Record<string, unknown> } | { move: number; to: number };

// A capture, as its file has it; positions in 1/65536 pixel
export interface Vertex { x: number; y: number; z?: number; color: number[] }
export interface Raster { kind: "raster"; cull: string; front_ccw: boolean; scissor: boolean }
export interface Scissor { kind: "scissor"; rect: number[] }
export interface Blend { kind: "blend"; enable: boolean; rgb: string[]; alpha: string[]; mask: number }
export interface Factor { kind: "factor"; color: number[] }
export interface Depth { kind: "depth"; enable: boolean; write: boolean; func: string }
export interface Clear { kind: "clear"; color: number[] }
export interface DepthClear { kind: "depth_clear"; depth: number }
export interface Draw { kind: "draw"; interp: string; vertices: Vertex[]; indices?: number[] }
export interface Marker { kind: "marker"; name: string }
export interface States { raster: Raster; scissor: Scissor; blend: Blend; factor: Factor; depth: Depth }
export type CaptureEvent = States[keyof States] | Clear | DepthClear | Draw | Marker;
export interface Capture { format: string; version: number; width: number; height: number; events: CaptureEvent[] }
// framedbg's run of one
export interface Exact { ask: (lines: string[]) => Promise<Reply[]>; end: () => void }

// ---- A card held against framedbg (card_judge.js): a pixel that differs, of an event that draws
export type Miss = { x: number; y: number; kind: string; isOpen: boolean } & ({ right: Colour; card: Colour } | { right: number; card: number });
export interface Judged { number: number; event: Clear | DepthClear | Draw; changed: number; found: Miss[] }

// ---- The page's elements, by id, where more than HTMLElement is wanted of them
export interface Elements {
  image: HTMLCanvasElement; "image-beside": HTMLCanvasElement; wires: HTMLCanvasElement; ticks: HTMLCanvasElement; histogram: HTMLCanvasElement;
  slider: HTMLInputElement; filter: HTMLInputElement; command: HTMLInputElement; file: HTMLInputElement; tolerance: HTMLInputElement;
  black: HTMLInputElement; white: HTMLInputElement; "range-shown": HTMLInputElement; "scissor-shown": HTMLInputElement; "wires-shown": HTMLInputElement;
  "card-scenes": HTMLInputElement; "card-only": HTMLInputElement; "card-file": HTMLInputElement; "card-table": HTMLTableElement;
  ask: HTMLFormElement; bookmarks: HTMLSelectElement; help: HTMLDialogElement; guide: HTMLDialogElement; outline: HTMLElement & SVGSVGElement;
}

// ---- What browsers have, and this compiler doesn't know yet
declare global {
  interface Array<T> {
    findLast(test: (item: T, index: number) => unknown): T | undefined;
    findLastIndex(test: (item: T, index: number) => unknown): number;
  }
  interface ReadonlyArray<T> {
    findLast(test: (item: T, index: number) => unknown): T | undefined;
    findLastIndex(test: (item: T, index: number) => unknown): number;
  }
  interface ObjectConstructor { groupBy<T>(items: Iterable<T>, key: (item: T) => string): Partial<Record<string, T[]>> }
  class DecompressionStream { constructor(format: string); readonly readable: ReadableStream<Uint8Array>; readonly writable: WritableStream<Uint8Array> }
  interface Element { setAttribute(name: string, value: string | number | boolean): void }        // which becomes a text
}
