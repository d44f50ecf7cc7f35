// The wheel and two fingers on the picture: Shift or a sideways turn pans, else it zooms in fine steps.

/** @typedef {import("./types").Place} Place */
/** @typedef {import("./picture.js").Picture} Picture */

const TURN = 400, LEAST = 1 / 64, MOST = 64;         // units of the wheel for a factor of e; zooms

/** @type {(stage: HTMLElement, picture: Picture) => () => boolean} */
export function listenToHands(stage, picture) {
  /** @type {Map<number, Place>} */
  const fingers = new Map();
  let apart = 0;
  /** @type {(factor: number, x: number, y: number) => void} */
  const zoomBy = (factor, x, y) => {
    const box = stage.getBoundingClientRect();
    picture.zoomTo(Math.min(MOST, Math.max(LEAST, picture.zoom * factor)), x - box.left, y - box.top);
  };
  stage.addEventListener("wheel", event => {
    event.preventDefault();
    const unit = event.deltaMode ? 40 : 1, dx = event.deltaX * unit, dy = event.deltaY * unit;
    if (event.shiftKey || Math.abs(dx) > Math.abs(dy)) stage.scrollBy(event.shiftKey && !dx ? dy : dx, event.shiftKey ? 0 : dy);
    else zoomBy(Math.exp(-dy / (event.ctrlKey ? TURN / 4 : TURN)), event.clientX, event.clientY);
  }, { passive: false });
  const spread = () => {
    const [one, two] = [...fingers.values()];
    return two && { apart: Math.hypot(one.x - two.x, one.y - two.y), x: (one.x + two.x) / 2, y: (one.y + two.y) / 2 };
  };
  stage.addEventListener("pointerdown", event => {
    if (event.pointerType === "touch") fingers.set(event.pointerId, { x: event.clientX, y: event.clientY });
    apart = spread()?.apart ?? 0;
  });
  addEventListener("pointermove", event => {
    if (!fingers.has(event.pointerId)) return;
    fingers.set(event.pointerId, { x: event.clientX, y: event.clientY });
    const now = spread();
    if (!now) return;
    if (apart) zoomBy(now.apart / apart, now.x, now.y);
    apart = now.apart;
  });
  for (const end of /** @type {const} */ (["pointerup", "pointercancel"])) addEventListener(end, event => { fingers.delete(event.pointerId); apart = 0; });
  return () => fingers.size > 1;
}
