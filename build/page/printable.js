// A text of somebody else's as it is shown: what can't be seen, or turns the direction of what follows, is written out, as tools/explaining/printable.py does.

const MOST_SHOWN = 300;        // characters
const UNSEEN = /(?! )[\p{C}\p{Z}]/gu, NAMED = { "\n": "\\n", "\r": "\\r", "\t": "\\t" };

function spelled(letter) {
  const code = letter.codePointAt(0), digits = code < 0x100 ? ["x", 2] : code < 0x10000 ? ["u", 4] : ["U", 8];
  return NAMED[letter] ?? `\\${digits[0]}${code.toString(16).padStart(digits[1], "0")}`;
}

export function printable(text) {
  const letters = [...text.slice(0, 2 * MOST_SHOWN + 2)];
  return (letters.length <= MOST_SHOWN ? text : `${letters.slice(0, MOST_SHOWN).join("")} ..`).replace(UNSEEN, spelled);
}

// One character in quotes, as Python writes it
export const quoted = letter => letter === "'" ? `"'"` : `'${letter === "\\" ? "\\\\" : letter.replace(UNSEEN, spelled)}'`;
