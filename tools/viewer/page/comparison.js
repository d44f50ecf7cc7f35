// What the picture is compared with: one that was pinned or comes from a file, what stands beside, or the frame with an event changed.

import { closeBeside, openBeside } from "./beside.js";
import { forgetFindings } from "./blame.js";
import { readPicture } from "./compare.js";
import { $ } from "./elements.js";
import { kindOf } from "./files.js";
import { frame } from "./frame.js";
import { isWhole, nextIn, pictureOf } from "./image.js";
import { notice, tellFault } from "./log.js";
import { differing, drawImage, setLook } from "./looks.js";
import { takesBeside } from "./run.js";
import { show, shown } from "./shown.js";

/** @typedef {import("./types").Image} Image */

export const pin = () => shown.after && !shown.isDragged && compareWith({ ...shown.after, name: `position ${frame.position}, pinned` });

/** @type {(file?: File) => void} */
export function load(file) {
  if (file) compareWithFile(file).catch(tellRefusal);
}

// What is told in several lines stays until it is closed
/** @type {(fault: any) => void} */
function tellRefusal(fault) {
  if (String(fault.message).includes("\n")) notice(fault.message, true, "Close", () => {});
  else tellFault(fault);
}

// A picture, or another capture, which is shown beside
/** @type {(file: File) => Promise<void>} */
async function compareWithFile(file) {
  if (takesBeside && await kindOf(file) === "capture") await openBeside(file);
  else compareWith(await readPicture(file));
}

/** @type {(other: Image) => void} */
function compareWith(other) {
  const { after } = shown;
  if (!after) return;
  if (other.width !== after.width || other.height !== after.height) {
    return notice(`${other.name} is ${other.width} × ${other.height}, the target ${after.width} × ${after.height}`, true);
  }
  closeBeside().catch(tellRefusal);
  show({ other });
  forgetFindings();
  setLook("compared");
}

// What stands beside is compared, position by position
/** @type {(image: Image | null) => void} */
export function compareBeside(image) {
  show({ other: image });
  if (!image && ["compared", "other"].includes(shown.look)) setLook("after");
  else drawImage();
}

// The next pixel in reading order that differs, after the chosen one and round again
export function nextDifferent() {
  const mask = differing(), next = mask && shown.after ? nextIn(shown.after, mask, shown.pixel) : null;
  if (next) frame.pick(next);
  else notice("no pixel differs");
}

// What a change of an event is of, and where it is shown
/** @type {import("./whatif.js").Hands} */
export const CHANGES = {
  events: () => frame.events, name: () => $("capture").textContent ?? "",
  atEnd: async () => {
    frame.goTo(frame.last);
    return frame.inTurn(() => shown.after && isWhole(shown.after) ? { ...shown.after, name: "the frame as it is" } : null);
  },
  compare({ width, height, samples }, before) {
    closeBeside().catch(tellRefusal);
    show({ other: before, mended: pictureOf(samples, width, height) });
    setLook("mended");
  },
  show: is => setLook(is ? "mended" : "after"),
};
