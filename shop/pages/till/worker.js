// Keeps the page's files, so that it opens without net too. A file comes from the server if that answers in time.
/* global self, caches */
const CACHE = "ledger-till-2", PATIENCE = 3000;
const FILES = ["./", "style.css", "till.js", "session.js", "queue.js", "rules.js", "store.js", "form.js", "sign.js", "trust.html", "trust.js", "chooser.js", "goods.js", "link.js", "marks.js", "mqtt.js"];

// what a shop may have beside the page's own files
const MORE = ["goods.csv", "config.json"];

async function keep() {
  const cache = await caches.open(CACHE);
  await cache.addAll(FILES);
  await Promise.allSettled(MORE.map((name) => cache.add(name)));
  await self.skipWaiting();
}

self.addEventListener("install", (event) => event.waitUntil(keep()));

/** Takes the pages over, without the files of an earlier release. */
async function begin() {
  for (const name of await caches.keys()) if (name.startsWith("ledger-till-") && name !== CACHE) await caches.delete(name);
  await self.clients.claim();
}

self.addEventListener("activate", (event) => event.waitUntil(begin()));

async function fresh(request) {
  const answer = await fetch(request, { signal: AbortSignal.timeout(PATIENCE), cache: "no-cache" });
  if (answer.ok) await (await caches.open(CACHE)).put(request, answer.clone());
  return answer;
}

async function answered(request) {
  try {
    return await fresh(request);
  } catch (fault) {
    const kept = await caches.match(request, { ignoreSearch: true });
    if (kept) return kept;
    throw fault;
  }
}

self.addEventListener("fetch", (event) => {
  const isOurs = event.request.method === "GET" && new URL(event.request.url).origin === self.location.origin;
  if (isOurs) event.respondWith(answered(event.request));
});
