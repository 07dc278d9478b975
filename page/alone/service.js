// The service worker: it keeps all files of one version, each with the hash that it has to have, and gives these alone. So no
// old file ever stands beside a new one. `page/static.py` writes the files and the version into this line:
const VERSION = "", FILES = {};

const PREFIX = `puzzles ${registration.scope} `, NAME = PREFIX + VERSION;

// All files or none: half a version would be of no use.
async function keepAll() {
  const cache = await caches.open(NAME);
  try {
    await fill(cache);
  } catch (fault) {
    await caches.delete(NAME);
    throw fault;
  }
}

async function fill(cache) {
  await Promise.all(Object.entries(FILES).map(async ([name, hash]) => {
    const reply = await fetch(new Request(name, { integrity: `sha256-${hash}`, cache: "no-cache" }));
    if (!reply.ok) throw new Error(`${name}: ${reply.status}`);
    await cache.put(name, reply);
  }));
}

// Older versions of this folder go. Those before names had the folder are known by what they hold.
async function dropOthers() {
  const names = await caches.keys(), old = names.filter((name) => /^puzzles [0-9a-f]{16}$/.test(name));
  const ours = await Promise.all(old.map(isOurs));
  const others = [...names.filter((name) => name.startsWith(PREFIX) && name !== NAME), ...old.filter((_, k) => ours[k])];
  await Promise.all(others.map((name) => caches.delete(name)));
}

async function isOurs(name) {
  const kept = await (await caches.open(name)).keys();
  return kept.some(({ url }) => url === new URL("index.html", registration.scope).href);
}

async function reply(request) {
  const { pathname } = new URL(request.url), name = pathname.endsWith("/") ? "index.html" : request;
  const cache = await caches.open(NAME);
  return await cache.match(name, { ignoreSearch: true }) || fetch(request);
}

addEventListener("install", (event) => event.waitUntil(keepAll()));
addEventListener("activate", (event) => event.waitUntil(dropOthers()));
addEventListener("message", ({ data }) => data === "take over" && skipWaiting());
addEventListener("fetch", (event) => event.request.method === "GET" && event.respondWith(reply(event.request)));
