// Keeps the page for when there is no network. A new version of it takes over as a whole: what is open is loaded anew, and what
// was filled in is kept.
const workers = navigator.serviceWorker;

async function register() {
  const isAgain = Boolean(workers.controller);
  workers.addEventListener("controllerchange", () => isAgain && location.reload());
  const { waiting } = await workers.register("service.js");
  if (isAgain) waiting?.postMessage("take over");
}

// Where it can't be done, as without TLS, the page is there with a network alone.
if (workers) addEventListener("load", () => register().catch(() => {}));
