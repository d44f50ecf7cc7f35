// Which capture is shown: the one that came with the page, or one that is chosen or dropped. It stays in this page: nothing is sent anywhere.

import { showCard } from "./card.js";
import { adviceOn, isNamedAsPicture, kindOf } from "./files.js";
import { pack, unpack } from "./packed.js";
import { forgetRefusal, tellRefusal } from "./refusal.js";
import { keep, kept } from "./reloaded.js";
import { Stopped } from "./runner.js";

const A_WHILE = 300;           // milliseconds after which the page says that it is busy
const came = document.documentElement.cloneNode(true);     // the page as it came, to be saved with another capture
came.querySelector("#begin").remove();
const inside = document.getElementById("own"), stage = document.getElementById("view"), busy = document.getElementById("busy");
let dialog, shown = null, turns = 0, openChoice = () => {};

// The page calls `take` with each capture, { name, bytes }, from the first on, and waits: it throws why one is refused. `draw` gives the image of one
export function chooseCaptures(take, draw) {
  const taken = async (name, bytes) => {
    const its = ++turns, late = setTimeout(() => { busy.hidden = false; }, A_WHILE);
    try {
      const other = { name, bytes: await bytes };
      await take(other);
      shown = other;
      forgetRefusal();
      dialog.close();
      keep(other, () => shown === other);
    } catch (fault) {
      if (!(fault instanceof Stopped)) refuse(`${name}: ${fault.message}`);
    } finally {
      clearTimeout(late);
      if (its === turns) busy.hidden = true;
    }
  };
  const takeFile = async file => {
    const kind = await kindOf(file), why = kind === "picture" ? pictureTold(file.name) : adviceOn(file.name, kind);
    if (why) return refuse(why);
    return taken(file.name, file.arrayBuffer().then(bytes => new Uint8Array(bytes)));
  };
  const takeOwn = () => taken(inside.dataset.name, unpack(inside.textContent)), last = kept();
  dialog = choiceOf(takeFile, takeOwn);
  const drawHunts = offerHunts(taken, draw);
  openChoice = () => {
    dialog.querySelector("#choice-close").hidden = !shown;
    forgetRefusal();
    dialog.showModal();
    drawHunts();
  };
  addButtons();
  listen(takeFile);
  if (last) taken(last.name, unpack(last.text));
  else if ("opens" in inside.dataset) takeOwn();
  else openChoice();
}

// Over the frame that stays; where there is none yet, in the choice
function refuse(why) {
  if (!shown && !dialog.open) openChoice();
  tellRefusal(shown && !dialog.open ? `${why}\n${shown.name} is shown as before.` : why, dialog.open ? dialog : stage);
}

const pictureTold = name => `${name} is a picture, and no capture. ${dialog.open ? "Open a capture first; then drop the picture on its frame" : "Drop it on the frame, or open it at Compared"}, to see what differs.`;

// The frames with a bug that came with the page, each with its picture. Whoever calls what this gives has those drawn, one after another while the choice is open
function offerHunts(taken, draw) {
  const all = [...document.querySelectorAll("script.hunt")], list = dialog.querySelector("#hunts");
  const undrawn = all.map(({ dataset: { name }, textContent }) => {
    const button = document.createElement("button"), picture = document.createElement("canvas");
    Object.assign(picture, { width: 120, height: 90, ariaHidden: "true" });
    button.append(picture, name.replace(/\.json$/, ""));
    button.onclick = () => taken(name, unpack(textContent));
    list.append(button);
    return { textContent, picture };
  });
  let turn = Promise.resolve();
  dialog.querySelector("#hunts-told").hidden = !all.length;
  return () => { turn = turn.then(async () => { while (dialog.open && undrawn.length) await drawHunt(undrawn.shift(), draw); }); };
}

async function drawHunt({ textContent, picture }, draw) {
  const { width, height, bytes } = await draw(await unpack(textContent)), painted = new ImageData(width, height);
  for (let p = 0; p < bytes.length; p++) painted.data[p] = p % 4 === 3 ? 255 : bytes[p];
  Object.assign(picture, { width, height }).getContext("2d").putImageData(painted, 0, 0);
}

function element(html) {
  const template = document.createElement("template");
  template.innerHTML = html;
  return document.body.appendChild(template.content.firstElementChild);
}

function choiceOf(takeFile, takeOwn) {
  const made = element(`<dialog id="choice"><h2>Which capture?</h2><p>Drop one anywhere on this page. It stays here: nothing is sent.</p>
    <p><input id="capture-file" type="file" accept=".json,application/json" aria-label="A capture of your own"> or the sample, <button id="own-capture"></button></p>
    <p id="hunts-told" hidden>Or look for what was planted in one of these frames (<button id="choice-guide" class="quiet">how to find who did it</button>):</p><div id="hunts"></div>
    <p>Or see whether <button id="choice-card" class="quiet">this card</button> draws as it should.</p>
    <p><button id="choice-close" hidden>Close</button></p></dialog>`);
  const [file, button, guide, card, close] = made.querySelectorAll("input, #own-capture, #choice-guide, #choice-card, #choice-close");
  button.textContent = inside.dataset.name;
  button.onclick = takeOwn;
  file.onchange = () => { if (file.files.length) takeFile(file.files[0]); file.value = ""; };
  guide.onclick = () => document.getElementById("guide").showModal();
  card.onclick = showCard;
  close.onclick = () => made.close();
  made.oncancel = event => { if (!shown) event.preventDefault(); };
  return made;
}

function addButtons() {
  const buttons = element(`<div><button id="open-capture" class="quiet" title="Another capture, the sample or a hunt; or drop one anywhere">Open&hellip;</button><button id="save-page"
    class="quiet" title="This page with this capture inside: one file, to send or to keep">Save page</button></div>`);
  document.querySelector("header .name").after(buttons);
  const [open, save] = buttons.children;
  open.onclick = () => openChoice();
  save.onclick = () => shown && savePage(shown);
}

// A file that is dropped anywhere is a capture, but for a picture on a frame, and what is dropped at Compared: both are the viewer's
function listen(takeFile) {
  addEventListener("dragover", event => event.preventDefault());       // else the browser would leave for the file
  addEventListener("drop", event => {
    const [file] = event.dataTransfer.files;
    event.preventDefault();
    const isCompared = !dialog.open && (document.getElementById("comparison").contains(event.target) || isNamedAsPicture(file?.name ?? "") && stage.contains(event.target));
    if (!file || document.getElementById("card")?.open || isCompared) return;
    event.stopPropagation();
    stage.classList.remove("over");
    takeFile(file);
  }, true);
}

async function savePage({ name, bytes }) {
  const page = came.cloneNode(true), own = page.querySelector("#own");
  own.textContent = await pack(bytes);
  Object.assign(own.dataset, { name, opens: "", place: document.documentElement.dataset.place ?? "" });
  const link = document.createElement("a");
  link.href = URL.createObjectURL(new Blob(["<!doctype html>\n", page.outerHTML], { type: "text/html" }));
  link.download = `framedbg_${name.replace(/\.json$/i, "")}.html`;
  link.click();
  setTimeout(() => URL.revokeObjectURL(link.href), 60_000);
}
