// Unpacks the page's script, the worker's and the decks, and begins. Files that both scripts have are there once. The
// policy of the page names the script's hash, so that no other runs.

import {unpacked} from "./unpack.js";

async function load() {
  const texts =
    JSON.parse(new TextDecoder().decode(await unpacked(document.getElementById("texts")?.textContent)));
  for (const name of ["script", "worker"]) texts[name] = texts[name].replace("/*shared*/", () => texts.shared);
  window.l6Texts = texts;
  const script = document.createElement("script");
  script.textContent = texts.script;
  document.body.append(script);
}

load().catch((error) => {
  const note = document.getElementById("run-note");
  if (note) note.textContent = `The page can't begin: ${error.message}. It needs a browser of 2023 or later.`;
  document.body.dataset.ready = "no";
});
