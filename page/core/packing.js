// Bytes and texts in the forms in which the page holds them: gzip and base64, links, checksums.

/** The bytes of a text in base64. A plain loop is many times faster than a function for each byte. */
export function fromBase64(text) {
  const binary = atob(text.trim());
  const bytes = new Uint8Array(binary.length);
  for (let place = 0; place < binary.length; place++) bytes[place] = binary.charCodeAt(place);
  return bytes;
}

/** Bytes led through a stream that packs or unpacks them. */
async function through(bytes, stream) {
  return new Uint8Array(await new Response(new Blob([bytes]).stream().pipeThrough(stream)).arrayBuffer());
}

export function gunzipped(bytes) {
  return through(bytes, new DecompressionStream("gzip"));
}

/** A value of JSON as it is written in a link: compressed, in letters that a link may have. */
export async function asLink(value) {
  const bytes = await through(new TextEncoder().encode(JSON.stringify(value)), new CompressionStream("deflate-raw"));
  let binary = "";
  for (const byte of bytes) binary += String.fromCharCode(byte);
  return btoa(binary).replace(/\+/g, "-").replace(/\//g, "_").replace(/=+$/, "");
}

/** The value of such a text; null where it is none. */
export async function fromLink(text) {
  try {
    const bytes = fromBase64(text.replace(/-/g, "+").replace(/_/g, "/"));
    return JSON.parse(new TextDecoder().decode(await through(bytes, new DecompressionStream("deflate-raw"))));
  } catch {
    return null;
  }
}

/** The text of a script of JSON, in which no tag may end. */
export function inScript(value) {
  return JSON.stringify(value).replace(/</g, "\\u003c");
}

/** The first digits of the SHA-256 of texts one after another; null where the browser has no checksums, as on a server without https. */
export async function checksumOf(texts) {
  if (!globalThis.crypto || !crypto.subtle) return null;
  const digest = new Uint8Array(await crypto.subtle.digest("SHA-256", new TextEncoder().encode(texts.join(""))));
  return [...digest.slice(0, 8)].map((byte) => byte.toString(16).padStart(2, "0")).join("");
}
