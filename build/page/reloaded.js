// The capture that is shown, kept in this tab for when the page is loaded again: where it stands has the address.

import { pack } from "./packed.js";

const KEY = `capture of ${location.pathname}`, MOST = 32 << 20;        // bytes of a capture that is worth packing; a tab keeps some five million letters

// Unless another one is shown by then. What a tab has no room for isn't kept
export async function keep({ name, bytes }, isShown) {
  try {
    sessionStorage.removeItem(KEY);
    const text = bytes.length > MOST ? "" : await pack(bytes);
    if (text && isShown()) sessionStorage.setItem(KEY, JSON.stringify({ name, text }));
  } catch {
    // a browser that keeps nothing, or not so much
  }
}

// { name, text } of the capture that was shown where this page is loaded again, else null
export function kept() {
  if (performance.getEntriesByType("navigation")[0]?.type !== "reload") return null;
  try {
    return JSON.parse(sessionStorage.getItem(KEY));
  } catch {
    return null;
  }
}
