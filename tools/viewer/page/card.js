// This card: whether what it draws in this browser is right. The scenes of framedbg-driver, or a capture, drawn by WebGL2 and by framedbg.

import { Player } from "./card_player.js";
import { COLUMNS, Row, several, tellCard, tellEvent, tellFirst, tellFrame, tellRows, Trial } from "./card_trial.js";
import { coarse } from "./features.js";
import { $, element } from "./elements.js";
import { messageOf } from "./log.js";
import { openCapture, ownCapture } from "./run.js";

/** @typedef {import("./types").Capture} Capture */
/** @typedef {import("./card_trial.js").First} First */
/** @typedef {{ player: Player, trial: Trial, say: (text: string) => void }} Hands */

const DIALOG = `<h2>This card</h2>
  <p>Scenes of one feature each are drawn by this browser's WebGL2 and by framedbg, and compared pixel by pixel.
    So are the events of a capture: drop one here.</p>
  <p class="doing"><button id="card-try">Try it</button>
    <label>scenes of each feature <input id="card-scenes" type="number" min="1" max="100" value="2"></label>
    <label>features <input id="card-only" placeholder="all" title="Those alone whose name begins so" spellcheck="false"></label>
    <button id="card-frame">This frame</button> <input id="card-file" type="file" accept=".json,application/json" aria-label="A capture to compare">
    <button id="card-stop" hidden>Stop</button></p>
  <p id="card-told" role="status"></p>
  <div class="wide"><table id="card-table" aria-label="Features"></table></div>
  <pre id="card-first" hidden></pre>
  <form method="dialog"><button id="card-copy" type="button" hidden title="The table as a text, for a bug report">Copy report</button>
    <button id="card-keep" type="button" hidden title="The scene of the first pixel that differs, for framedbg-driver">Save scene</button>
    <button>Close</button></form>`;
/** @type {HTMLDialogElement | null} */
let dialog = null;
let turns = 0, report = "";
/** @type {First | null} */
let worst = null;

// The view, opened by whoever asks for it
export function showCard() {
  dialog ??= made();
  if (!dialog.open) dialog.showModal();
}

/** @type {() => HTMLDialogElement} */
function made() {
  const its = document.createElement("dialog");
  Object.assign(its, { id: "card", innerHTML: DIALOG });
  document.body.append(its);
  $("card-try").onclick = () => work(tryScenes);
  $("card-frame").onclick = () => work(async hands => compare(hands, await ownCapture()));
  $("card-stop").onclick = stop;
  $("card-copy").onclick = () => navigator.clipboard.writeText(report);
  $("card-keep").onclick = keep;
  $("card-file").onchange = () => { take($("card-file").files?.[0]); $("card-file").value = ""; };
  its.onclose = stop;
  its.ondragover = event => event.preventDefault();
  its.ondrop = event => {
    event.preventDefault();
    event.stopPropagation();
    take(event.dataTransfer?.files[0]);
  };
  return its;
}

function stop() {
  turns++;
  $("card-stop").hidden = true;
}

/** @type {(file?: File) => unknown} */
const take = file => file && work(async hands => compare(hands, { name: file.name, bytes: new Uint8Array(await file.arrayBuffer()) }));

// Has the card do something; what was begun before is given up
/** @type {(doing: (hands: Hands) => Promise<string>) => Promise<void>} */
async function work(doing) {
  const its = ++turns, isStopped = () => its !== turns;
  /** @type {Player | null} */
  let player = null;
  [report, worst] = ["", null];
  $("card-table").replaceChildren();
  for (const id of ["card-first", "card-copy", "card-keep"]) $(id).hidden = true;
  $("card-stop").hidden = false;
  try {
    player = new Player();
    const told = await doing({ player, trial: new Trial(player, openCapture, isStopped), say: text => { if (!isStopped()) $("card-told").textContent = text; } });
    if (!isStopped()) finish(told);
  } catch (fault) {
    if (!isStopped()) $("card-told").textContent = messageOf(fault);
  } finally {
    player?.close();
    if (!isStopped()) $("card-stop").hidden = true;
  }
}

/** @type {(told: string) => void} */
function finish(told) {
  report = told;
  $("card-copy").hidden = false;
}

/** @type {(first: First | null) => void} */
function noteFirst(first) {
  if (worst || !first) return;
  worst = first;
  $("card-first").textContent = `first beyond rounding: ${first.capture.name ?? ""} ${tellFirst(first)}`;
  $("card-first").hidden = false;
  $("card-keep").hidden = !first.capture.events;
}

// ---- Scenes
/** @type {(hands: Hands) => Promise<string>} */
async function tryScenes({ player, trial, say }) {
  const named = player.named(), scenes = Math.max(1, Math.min(100, Math.floor(+$("card-scenes").value) || 1));
  say(`${tellCard(named)}: how many bits of a pixel's fraction it has is tried`);
  headRow(["feature", "pixels", ...COLUMNS.map(([name]) => name), "verdict", "breaks"]);
  const only = [$("card-only").value.trim()].filter(word => word);
  const done = await trial.run({ scenes, only, told: row => { addRow(row); say(`${tellCard(named)}: ${row.name}`); } });
  const differ = done.rows.filter(({ verdict }) => verdict === "differs").length;
  say(`${tellCard(named)}; corners on ${done.bits} bits: ${several(done.rows.length, "feature")}, ${differ} differ`);
  return tellRows(named, done, navigator.userAgent);
}

/** @type {(names: string[]) => void} */
function headRow(names) {
  $("card-table").createTHead().insertRow().append(...names.map(name => element("th", "", name)));
  $("card-table").createTBody();
}

/** @type {(row: Row) => void} */
function addRow(row) {
  const line = $("card-table").tBodies[0].insertRow();
  line.className = row.verdict.split(" ")[0];
  const texts = [row.name, row.pixels.toLocaleString("en"), ...row.cells.map(cell => String(cell || "·")), row.verdict, row.breaks];
  line.append(...texts.map(text => element("td", "", text)));
  noteFirst(row.first);
}

// ---- A capture
/** @type {(hands: Hands, file: { name: string, bytes: Uint8Array }) => Promise<string>} */
async function compare({ player, trial, say }, { name, bytes }) {
  const named = player.named(), read = await readCapture(name, bytes);
  say(`${tellCard(named)}: how many bits of a pixel's fraction it has is tried`);
  const bits = await trial.bits(), capture = coarse(read, bits), row = new Row(name);
  /** @type {string[]} */
  const lines = [];
  let judged = 0;
  headRow(["event"]);
  await trial.judged(capture, one => {
    row.note(one, { name });
    judged++;
    const line = tellEvent(one);
    if (line) lines.push(line), $("card-table").tBodies[0].insertRow().append(element("td", "", line));
    say(`${name}: event ${one.number} of ${capture.events.length}`);
    noteFirst(row.first);
  });
  say(`${tellCard(named)}; corners on ${bits} bits: ${several(judged, "event")} of ${name} judged, ${row.verdict}`);
  return tellFrame(`${tellCard(named)}; corners on ${bits} bits`, name, capture, lines, row, judged, navigator.userAgent);
}

// One that framedbg refuses is told as elsewhere
/** @type {(name: string, bytes: Uint8Array) => Promise<Capture>} */
async function readCapture(name, bytes) {
  const run = openCapture(bytes);
  try {
    await run.ask(["state"]);
    return JSON.parse(new TextDecoder().decode(bytes));
  } catch (fault) {
    throw new Error(`${name}: ${messageOf(fault)}`);
  } finally {
    run.end();
  }
}

function keep() {
  if (!worst) return;
  const { name, ...capture } = worst.capture, link = document.createElement("a");
  link.href = URL.createObjectURL(new Blob([JSON.stringify(capture)], { type: "application/json" }));
  link.download = name;
  link.click();
  setTimeout(() => URL.revokeObjectURL(link.href), 60_000);
}
