// The page: wires the panels to the frame, and hands to both.

import { captureName, firstPlace, frameOf, onCapture } from "./run.js";
import { onWorking } from "./working.js";
import { frame } from "./frame.js";
import { AT_FIRST, show, shown } from "./shown.js";
import { setFilter, foundFirst, listEvents, listWriters, drawEvents, drawTicks, drawWriters, onHoverEvent } from "./events.js";
import { forgetBoxes, outlineEvent } from "./boxes.js";
import { forgetThumbnails } from "./thumbnails.js";
import { drawPixel } from "./panels.js";
import { drawState } from "./state.js";
import { showTabs } from "./tabs.js";
import { forgetTriangles, redraw, showTriangles } from "./triangles.js";
import { followBookmarks, showBookmarks } from "./bookmarks.js";
import { dragColumns } from "./columns.js";
import { listenToLine } from "./typed.js";
import { film } from "./film.js";
import { showCard } from "./card.js";
import { followBlame, forgetFindings } from "./blame.js";
import { followChanges, forgetChange, isChange, tryChange } from "./whatif.js";
import { CHANGES, compareBeside, load, nextDifferent, pin } from "./comparison.js";
import { drawImage, forgetImage, hoverAt, noteChange, picture, setLook } from "./looks.js";
import { KEYS, forgetHeld, listenToKeys } from "./keys.js";
import { keepPlace, onPlace, placeOf, readPlace } from "./place.js";
import { partFor } from "./parts.js";
import { LOOKS } from "./maps.js";
import { forgetRanges } from "./range.js";
import { closeBeside, follow, followBeside, openBeside, place, redrawBeside } from "./beside.js";
import { followTheme } from "./theme.js";
import { $, all, element } from "./elements.js";
import { figures } from "./words.js";
import { forget, notice, session } from "./log.js";

/** @typedef {import("./types").Channel} Channel */
/** @typedef {import("./types").Look} Look */
/** @typedef {import("./types").Rect} Rect */
/** @typedef {import("./types").Stand} Stand */

// ---- What is drawn
frame.onShow = what => {
  if (what === "events") listEvents(), forgetFindings(), forgetThumbnails(), forgetChange(CHANGES);
  if (what === "history") listWriters();
  if (what === "events") drawTicks();
  if (what === "history") drawWriters();
  if (what === "outline") return picture.setOutline(shown.corners), drawPixel(), void showTriangles(picture);
  drawPosition();
  drawImage();
  if (what === "position") noteChange();
  drawEvents();
  drawPixel();
  drawState();
  showTriangles(picture);
  if (shown.after && what !== "events" && !frame.isOpening) keepPlace(placeOf(frame, shown));
  if (what === "position") film.arrived();
  tellLive();
  follow();
};

function drawPosition() {
  const { position, last } = frame;
  $("position").replaceChildren(element("b", "", String(position)), ` / ${last}`);
  Object.assign($("slider"), { max: last, value: position });
  $("slider").setAttribute("aria-valuetext", `position ${position} of ${last}`);
  for (const id of ["first", "back"]) $(id).setAttribute("aria-disabled", position === 0);       // not disabled: that would drop the focus
  for (const id of ["step", "last"]) $(id).setAttribute("aria-disabled", position === last);
}

// For who hears the page
function tellLive() {
  const { position, events, last } = frame, { pixel, value } = shown, event = events[position - 1];
  const stands = `position ${position} of ${last}${event ? `: ${event.kind}` : ""}`;
  $("live").textContent = `${stands}${pixel && value ? `; pixel ${pixel.x} ${pixel.y} is ${figures(value.colour)}` : ""}`;
  $("image").setAttribute("aria-label", `The image at ${stands}`);
}

// ---- Hands
// Another part of the target in sight: what of a large image, or of the depths, is to be fetched
/** @type {(visible: Rect) => void} */
function move(visible) {
  if (!shown.after) return;
  const part = partFor(shown.after, visible);
  if (part !== undefined) frame.fetchPart(part);
  if (LOOKS.has(shown.look)) frame.wantMap(shown.look, visible);
  if ($("range-shown").checked) drawImage();
}

/** @type {(text: string, what: string) => Promise<void>} */
async function copy(text, what) {
  await navigator.clipboard.writeText(text);
  notice(`Copied: ${what}`);
}

// What is shown, in the pixels of its part of the target
function savePng() {
  const link = document.createElement("a");
  link.download = `${captureShown().replace(/\.json$/i, "")}_${frame.position}.png`;      // of the picture, which comes when the page may have gone on
  $("image").toBlob(blob => {
    if (!blob) return;
    link.href = URL.createObjectURL(blob);
    link.click();
    setTimeout(() => URL.revokeObjectURL(link.href), 60_000);
  });
}

const captureShown = () => $("capture").textContent ?? "";

function listenToButtons() {
  const value = () => $("value").textContent ?? "";
  const clicks = {
    first: KEYS.Home, back: KEYS.ArrowLeft, step: KEYS.ArrowRight, last: KEYS.End, play: KEYS.f, stop: KEYS["."], fit: KEYS[0], larger: KEYS["+"], smaller: KEYS["-"], keys: KEYS["?"], "to-guide": () => $("guide").showModal(), "to-card": showCard,
    "writer-before": KEYS["["], "writer-after": KEYS["]"], pin, load: () => $("file").click(), "next-different": nextDifferent,
    copy: () => copy(session(), "a session for framedbg run"), "copy-value": () => copy(value(), value()), "save-png": savePng,
  };
  for (const [id, doing] of Object.entries(clicks)) $(id).onclick = () => doing();
  for (const button of all("[data-look]")) button.onclick = () => setLook(/** @type {Look} */ (button.dataset.look));
  for (const button of all("[data-state]")) button.onclick = () => { show({ whose: button.dataset.state === "next" ? "next" : "with" }); drawState(); };
  for (const button of all("[data-channel]")) {
    const channel = /** @type {Channel} */ (button.dataset.channel);
    button.onclick = () => showChannels({ ...shown.channels, [channel]: !shown.channels[channel] });
    button.ondblclick = () => showChannels({ r: false, g: false, b: false, a: false, [channel]: true });
  }
  $("theme").onclick = followTheme(drawTicks);
}

/** @type {(channels: Record<Channel, boolean>) => void} */
function showChannels(channels) {
  show({ channels });
  drawImage();
  redrawBeside();
}

function listenToInputs() {
  $("slider").oninput = () => frame.goTo(+$("slider").value, shown.look === "after" ? picture.leftOut() : 1);
  $("slider").onchange = () => shown.isDragged && frame.goTo(+$("slider").value);
  $("filter").oninput = () => setFilter($("filter").value);
  $("filter").onkeydown = event => { const found = event.key === "Enter" && foundFirst(); if (found) frame.goTo(found); };
  $("scissor-shown").onchange = $("range-shown").onchange = $("tolerance").oninput = drawImage;
  $("wires-shown").onchange = () => showTriangles(picture);
  $("file").onchange = () => { load($("file").files?.[0]); $("file").value = ""; };
  $("view").ondragover = event => { event.preventDefault(); $("view").classList.add("over"); };
  $("view").ondragleave = () => $("view").classList.remove("over");
  $("view").ondrop = event => { event.preventDefault(); $("view").classList.remove("over"); load(event.dataTransfer?.files[0]); };
  listenToLine($("ask"), $("command"), line => isChange(line) ? tryChange(line, CHANGES) : frame.command(line));
}

function listenToPicture() {
  picture.onPick = pixel => frame.pick(pixel);
  picture.onZoom = zoom => { $("zoom").textContent = zoom >= 1 ? `${zoom}×` : `${Math.round(zoom * 100)}%`; };
  picture.onMove = move;
  picture.onView = () => { redraw(); place(); };
  picture.onHover = hoverAt;
}

function listen() {
  document.addEventListener("pointerdown", event => /** @type {Element} */ (event.target).closest("#play") || film.stop(), true);
  listenToButtons();
  listenToInputs();
  listenToPicture();
  listenToKeys();
  followChanges(CHANGES);
  followBlame({ other: () => shown.other, tolerance: () => +$("tolerance").value, goTo: event => frame.goTo(event), pick: pixel => frame.pick(pixel), show: mended => { show({ mended }); setLook(mended ? "mended" : "compared"); } });
  followBeside({ compare: compareBeside });
  dragColumns();
  followBookmarks(stand => frame.goToPlace(stand));
  onHoverEvent(event => outlineEvent(event, picture));
  addEventListener("focus", () => frame.again());       // a page in another browser may have switched events
}

// The run's capture: at first, perhaps at a place, and where there is another
/** @type {(place?: Stand | null) => void} */
function begin(place = null) {
  film.stop();
  show(AT_FIRST);
  forgetHeld();
  forgetFindings();
  forgetChange();
  closeBeside(true);
  forgetRanges();
  forgetBoxes();
  forgetImage();
  forget();
  forgetTriangles();
  frame.inTurn(async () => {
    $("capture").textContent = $("capture").title = await captureName();
    showTabs(await frameOf());
    showBookmarks(captureShown());
    document.title = `${captureShown()} – framedbg`;
  });
  frame.open(place);
}

listen();
onCapture(() => begin());
onPlace(stand => frame.goToPlace(stand));
onWorking(isSlow => {
  $("stop").setAttribute("aria-disabled", !isSlow);
  $("view").setAttribute("aria-busy", isSlow);
  $("busy").hidden = !isSlow;
});
begin(readPlace(firstPlace()));
openBeside();
