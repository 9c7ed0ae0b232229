// Keeps a course page as it is now: the server tells a version, and the page is fetched where it differs.
"use strict";

// Moments as they are where the reader is.
const localise = () => {
  for (const e of document.querySelectorAll("time[datetime]")) e.textContent = new Date(e.dateTime).toLocaleString(document.documentElement.lang);
};
localise();

const live = document.querySelector("#live[data-events]");
if (live) {
  const news = document.querySelector("#news");
  const shown = () => live.querySelector("[data-version]").dataset.version;
  const fields = () => [...live.querySelectorAll("form [name^='v-']")];
  const old = (field) => field.form.querySelector(`[name="o-${field.name.slice(2)}"]`).value;
  const states = () => new Map([...live.querySelectorAll("[data-state]")].map((e) => [e.dataset.title, e.dataset.state]));
  let latest = null, busy = false, source = null;

  // What is being written stays as it is, and the place of the keyboard too.
  const replace = (text) => {
    const begun = new Map(fields().filter((f) => f.value !== old(f)).map((f) => [f.id, f.value]));
    const at = document.activeElement, before = states();
    const range = at && "selectionStart" in at ? [at.selectionStart, at.selectionEnd] : null;
    live.innerHTML = text;
    localise();
    for (const f of fields()) if (begun.has(f.id)) f.value = begun.get(f.id);
    const again = at && at.id && document.getElementById(at.id);
    if (again && again !== at) {
      again.focus();
      if (range && range[0] !== null) again.setSelectionRange(...range);
    }
    tell(before, states());
  };

  // Says in words what changed, for whoever does not see it.
  const tell = (before, after) => {
    const changed = [...after].filter(([title, state]) => before.get(title) !== state);
    news.textContent = changed.map(([title, state]) => `${title}: ${state}.`).join(" ") || "The page has changed.";
  };

  const refresh = async () => {
    if (busy) return;
    busy = true;
    try {
      while (latest !== shown()) {
        const answer = await fetch(live.dataset.view, { redirect: "error" });
        if (!answer.ok) break;
        replace(await answer.text());
        latest = shown();
      }
    } catch (error) {
      // The next version brings the page up to date.
    } finally {
      busy = false;
    }
  };

  // A browser has six connections to a place, so a page that nobody sees does not hold one.
  const listen = () => {
    if (document.hidden) {
      source?.close();
      source = null;
    } else if (!source) {
      source = new EventSource(live.dataset.events);
      source.addEventListener("changed", (e) => { latest = e.data; refresh(); });
    }
  };
  document.addEventListener("visibilitychange", listen);
  listen();
}
