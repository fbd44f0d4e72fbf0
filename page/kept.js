"use strict";
// The data that this browser keeps: your scripts by name, exercises that were begun, and the script that was open last.
// What it can't store, the page remembers until it's left, and says so.

const KEPT = "bsdudp.", unstored = new Map();

// Keeps a value; null removes it.
function keep(name, value) {
  unstored.delete(name);
  try {
    if (value === null) localStorage.removeItem(KEPT + name);
    else localStorage.setItem(KEPT + name, JSON.stringify(value));
  } catch (fault) {
    unstored.set(name, value);
  }
}

function kept(name) {
  if (unstored.has(name)) return unstored.get(name);
  try {
    return JSON.parse(localStorage.getItem(KEPT + name));
  } catch (fault) {
    return null;
  }
}

// ---- your scripts

const FIRST_NAME = "Your script";
const isKept = name => kept(name) !== null;
const ownNames = () => (kept("names") || []).filter(name => isKept(`script.${name}`));
const ownScript = name => kept(`script.${name}`);

// Keeps a script of yours, and returns its name: another one if the same script was changed in another window, so that
// its text isn't `stored` any more. An empty script has no place in the list.
function keepBeside(name, stored, script) {
  const there = ownScript(name), isOther = there && there.text !== stored && there.text !== script.text;
  const free = isOther ? freeName(name, script.text) : name;
  keepOwn(free, script);
  return free;
}

function keepOwn(name, script) {
  const isEmpty = !script.text.trim(), names = ownNames();
  if (isEmpty === names.includes(name)) keep("names", isEmpty ? names.filter(it => it !== name) : [...names, name]);
  keep(`script.${name}`, isEmpty ? null : script);
  keep("own", name);
}

function forgetOwn(name) {
  keep("names", ownNames().filter(it => it !== name));
  keep(`script.${name}`, null);
}

// This name, or the first one with a number after it, that no script with another text has.
function freeName(name, text) {
  const isFree = it => !ownScript(it) || ownScript(it).text === text;
  let found = name;
  for (let n = 2; !isFree(found); n++) found = `${name} ${n}`;
  return found;
}

// The script of yours that was open last. Earlier versions of the page kept one, without a name.
function lastOwn() {
  const last = kept("own");
  if (last && last.text) {
    keepOwn(FIRST_NAME, last);
    return FIRST_NAME;
  }
  return typeof last === "string" && ownScript(last) ? last : ownNames().pop() || null;
}

// Whether a text of yours would be lost with this page.
const isUnstored = () => [...unstored].some(([name, value]) => /^(script|text)\./.test(name) && value !== null);

function showUnstored() {
  byId("unstored").hidden = !isUnstored();
}

addEventListener("beforeunload", event => isUnstored() && event.preventDefault());

// ---- before something of yours is removed

// Asks, and returns whether the answer is yes, the button with this name.
function ask(text, name) {
  const dialog = byId("asks");
  byId("asks-what").textContent = text;
  byId("asks-yes").textContent = name;
  dialog.returnValue = "";
  dialog.showModal();
  return new Promise(done =>
    dialog.addEventListener("close", () => done(dialog.returnValue === "yes"), { once: true }));
}

async function askForget() {
  const { mine } = page;
  if (page.text.trim() && !await ask(`Delete “${mine}”? It can't be restored.`, "Delete")) return;
  forgetOwn(mine);
  if (lastOwn()) openOwn();
  else openNamed(LISTS.lessons[0]);
  byId("choice").focus();
}

async function askAnew() {
  if (await ask("Begin again? The replies and answers that you wrote are removed.", "Begin again")) anew();
}
