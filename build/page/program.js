// A worker: the program framedbg in WebAssembly. The page sends it the compiled program, its words and a capture once, and then lines; what the
// program writes goes back. Reading suspends the program until a line is there (JavaScript Promise Integration), so the worker hears the page meanwhile.

const INPUT = 0, ERRORS = 2;
const PIECE = 1 << 20;             // bytes that a read or a write moves at most, and that are kept here before they are sent
const lines = [], written = [];
const said = new TextDecoder();
let arrived = () => {}, memory, words, capture, most, read = 0, kept = 0, errors = "";

class Exit extends Error {
  constructor(status) { super(`status ${status}`); this.status = status; }
}

const at = (place, count) => new Uint8Array(memory.buffer, place, count);

function give(bytes, place, room) {
  const part = bytes.subarray(0, Math.min(room, most));
  at(place, part.length).set(part);
  return part.length;
}

function send() {
  const pieces = written.splice(0);
  if (kept) postMessage({ pieces }, pieces.map(piece => piece.buffer));
  kept = 0;
}

const host = {
  read: new WebAssembly.Suspending(async (file, place, room) => {
    if (file !== INPUT) {
      const count = give(capture.subarray(read), place, room);
      read += count;
      return count;
    }
    send();
    while (!lines.length) await new Promise(resolve => { arrived = resolve; });
    const count = give(lines[0], place, room);
    lines[0] = lines[0].subarray(count);
    if (count && !lines[0].length) lines.shift();       // an empty piece is the end of the input, and stays
    return count;
  }),
  write(file, place, whole) {
    const count = Math.min(whole, most), bytes = at(place, count).slice();
    if (file === ERRORS) {
      errors += said.decode(bytes, { stream: true });
    } else {
      written.push(bytes);
      kept += count;
      if (kept >= PIECE) send();
    }
    return count;
  },
  arg(number, place, room) {
    if (number >= words.length) return -1;
    const word = new TextEncoder().encode(words[number]);
    if (word.length > room) return -2;
    at(place, word.length).set(word);
    return word.length;
  },
  exit(status) { throw new Exit(status); },
};

async function start(program) {
  let ending = "";
  try {
    const { exports } = await WebAssembly.instantiate(program, { host });
    memory = exports.memory;
    ending = `status ${await WebAssembly.promising(exports.start)()}`;
  } catch (fault) {
    ending = fault.message;
  }
  send();
  postMessage({ ended: { errors, ending } });
}

onmessage = ({ data }) => {
  if (data.program) {
    ({ words, capture, most = PIECE } = data);
    start(data.program);
  } else {
    lines.push(data.lines);
    arrived();
  }
};
