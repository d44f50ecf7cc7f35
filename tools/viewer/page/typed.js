// The command line: what was typed before comes back with up and down.

const MOST = 200;

/** @type {(form: HTMLFormElement, line: HTMLInputElement, command: (line: string) => void) => void} */
export function listenToLine(form, line, command) {
  /** @type {string[]} */
  const before = [];
  let at = 0;
  form.onsubmit = event => {
    event.preventDefault();
    const typed = line.value.trim();
    if (typed) {
      if (before.at(-1) !== typed) before.push(typed);
      if (before.length > MOST) before.shift();
      command(line.value);
    }
    at = before.length;
    line.value = "";
  };
  line.onkeydown = event => {
    const way = event.key === "ArrowUp" ? -1 : event.key === "ArrowDown" ? 1 : 0;
    if (!way || !before.length) return;
    at = Math.max(0, Math.min(before.length, at + way));
    line.value = before[at] ?? "";
    event.preventDefault();
  };
}
