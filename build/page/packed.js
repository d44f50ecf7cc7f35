// Bytes as text within a page: gzip, and then base64.

const PIECE = 1 << 15;             // bytes that become characters at once

const through = async (bytes, stream) => new Uint8Array(await new Response(new Blob([bytes]).stream().pipeThrough(stream)).arrayBuffer());

export const unpack = text => through(Uint8Array.from(atob(text.trim()), letter => letter.charCodeAt(0)), new DecompressionStream("gzip"));

export async function pack(bytes) {
  const small = await through(bytes, new CompressionStream("gzip"));
  let letters = "";
  for (let at = 0; at < small.length; at += PIECE) letters += String.fromCharCode(...small.subarray(at, at + PIECE));
  return btoa(letters);
}
