// Loads the page's scripts that need no document, without a browser.
"use strict";
const fs = require("fs"), path = require("path"), vm = require("vm");

const SCRIPTS = ["engine", "packet", "play", "stack", "chains", "wire", "capture"];

// The values of these names in the scripts. page/build writes lists.js next to the module.
function load(names, module) {
  const files = SCRIPTS.map(name => path.join(__dirname, "..", `${name}.js`));
  const texts = [path.join(path.dirname(module), "lists.js"), ...files].map(file => fs.readFileSync(file, "utf8"));
  const code = texts.map(text => text.replace('"use strict";', "")).join("\n");
  return vm.runInNewContext(`${code}\n({ ${names.join(", ")} })`, { WebAssembly, TextEncoder, TextDecoder });
}

module.exports = { load };
