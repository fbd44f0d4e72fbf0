// node page/test/captured.js MODULE.wasm CAPTURE..: prints the page's result for each capture, one JSON object on each
// line: `fault`, or the script's `text` and its `steps`, each with its line, its reply, the lines below it, the
// counters that increased, the cause of a drop, and the numbers in the headers of its packet.
"use strict";
const fs = require("fs");
const { load } = require("./sources.js");

const [wasm, ...files] = process.argv.slice(2);
const page = load(["Engine", "captureScript", "tracePlay"], wasm);

function played(engine, file) {
  const { records, fault: end } = engine.records(new Uint8Array(fs.readFileSync(file)));
  const script = page.captureScript(engine, records);
  if (script.fault) return { fault: script.fault, end };
  const { code, steps } = page.tracePlay(engine, script.text);
  const told = ({ line, says, below, changed, causes, packet }) => ({ line, says, below,
    changed: Object.fromEntries(changed.map(({ name, by }) => [name, by])),
    causes: causes ? [...causes.values()] : [], header: packet ? engine.header(packet.bytes) : null });
  return { ...script, end, code, steps: steps.map(told) };
}

async function main() {
  const engine = await page.Engine.load(fs.readFileSync(wasm));
  for (const file of files) console.log(JSON.stringify(played(engine, file)));
}

main();
