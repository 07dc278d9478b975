// The program's calls, of the server. The page without one has another file in this one's place.
const SECONDS = 15;

export const AT_ONCE = 3; // calls that a page makes at a time, of the eight that the server answers

export function call(name, fields) {
  const headers = { "Content-Type": "application/json" }, signal = /** @type {any} */ (AbortSignal).timeout(SECONDS * 1000);
  const request = { method: "POST", headers, body: JSON.stringify(fields), signal };
  return fetch(name, request).then((reply) => reply.json()).catch(() => ({ failed: "away" }));
}

// Calls for what is made behind, which keep no other call waiting.
export const callBehind = call;
