// Who made the image differ from the compared picture: what framedbg-blame found, as a list. A click leads to the event, and to a pixel that differs;
// the picture after what mends it can be looked at.

import { blame, stopBlame } from "./run.js";
import { isWhole, pictureOf } from "./image.js";
import { $, element } from "./elements.js";
import { notice, tellFault } from "./log.js";

/** @typedef {import("./types").Image} Image */
/** @typedef {import("./types").Place} Place */
/** @typedef {{ other: () => Image | null, tolerance: () => number, goTo: (event: number) => void, pick: (pixel: Place) => void, show: (mended: Image | null) => void }} Hands */
/** @typedef {{ number: number, pixels: number, pixel: [x: number, y: number], event: number | null, change?: string, left?: number }} Finding */
/** @typedef {{ stopped?: boolean, differ: number, changes: { event: number, change: string, differ: number }[], findings: Finding[], samples: Uint8Array, over?: boolean, more?: string }} Found */

/** @type {(number: number) => string} */
const count = number => `${number.toLocaleString("en")} pixel${number === 1 ? "" : "s"}`;
let searches = 0, looking = false;

// `hands` of the page: other() and tolerance() are what is compared with, goTo(event) and pick(pixel) lead there, and show(picture) shows what is mended
/** @type {(hands: Hands) => void} */
export function followBlame(hands) {
  $("who").onclick = () => looking ? stopBlame() : look(hands).catch(tellFault);
}

// What was found is of another picture now, or of other events
export function forgetFindings() {
  searches++;
  if (looking) stopBlame();
  $("findings").hidden = true;
  $("findings").replaceChildren();
}

/** @type {(hands: Hands) => Promise<void>} */
async function look(hands) {
  const other = hands.other();
  if (!other || !isWhole(other)) return notice("A whole picture to compare with is wanted: pin this image, or open or drop one");
  forgetFindings();
  const its = searches;
  setLooking(true);
  try {
    const found = await blame(other, hands.tolerance(), tried => its === searches && setLooking(true, ` (${tried.toLocaleString("en")} tried)`));
    if (its === searches && !found.stopped) show(found, other, hands);
  } finally {
    setLooking(false);
  }
}

/** @type {(is: boolean, far?: string) => void} */
function setLooking(is, far = "") {
  looking = is;
  $("who").textContent = is ? `Stop looking${far}` : "Who did it?";
  $("who").setAttribute("aria-busy", is);
}

// Where a change mends it all, neither that the time was over nor that `more` is tried elsewhere is of any weight
/** @type {(found: Found, other: Image, hands: Hands) => void} */
function show({ differ, changes, findings, samples, over, more }, { width, height }, hands) {
  const best = changes[0], mended = best && pictureOf(samples, width, height);
  const rest = differ && best?.differ !== 0 ? [over ? "the time was over" : "", more ?? ""].filter(Boolean) : [];
  $("findings").replaceChildren(element("span", !differ || best?.differ === 0 ? "verdict" : "verdict unmended", tell(differ, best)), ...(mended ? [mendedButton(mended, hands)] : []),
    ...findings.map(finding => row(finding, hands)), ...rest.map(text => element("span", "rest", text)));
  $("findings").hidden = false;
}

/** @type {(differ: number, best?: Found["changes"][0]) => string} */
function tell(differ, best) {
  if (!differ) return "At the end of the frame no pixel differs";
  if (!best) return "No change that was tried mends it";
  return `Event ${best.event}, ${best.change}: ${best.differ ? `${count(best.differ)} still differ, so it is a hint` : "no pixel differs after it"}`;
}

/** @type {(finding: Finding, hands: Hands) => HTMLElement} */
function row({ number, pixels, pixel, event, change, left }, { goTo, pick }) {
  const who = event === null ? "nobody is named" : `event ${event}`, what = change === undefined ? "" : left ? `, fewer by ${change}` : `, mended by ${change}`;
  const button = element("button", "finding", `${number}: ${count(pixels)} at ${pixel.join(" ")}: ${who}${what}`);
  button.onclick = () => {
    if (event !== null) goTo(event);
    pick({ x: pixel[0], y: pixel[1] });
  };
  return button;
}

/** @type {(picture: Image, hands: Hands) => HTMLElement} */
function mendedButton(picture, { show: showMended }) {
  const button = element("button", "mended", "Mended");
  button.title = "The picture after the change";
  button.setAttribute("aria-pressed", false);
  button.onclick = () => {
    const is = button.getAttribute("aria-pressed") !== "true";
    button.setAttribute("aria-pressed", is);
    showMended(is ? picture : null);
  };
  return button;
}
