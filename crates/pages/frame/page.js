"use strict";

// What the page has of the run: the lines of the trace, each an object, and the report behind them.

// The bytes that stand percent-encoded in an element, as text.
function read(id) {
  const told = document.getElementById(id).textContent;
  const bytes = new Uint8Array(told.length);
  let length = 0;
  for (let at = 0; at < told.length; at += 1) {
    if (told[at] === "%") {
      bytes[length] = parseInt(told.slice(at + 1, at + 3), 16);
      at += 2;
    } else {
      bytes[length] = told.charCodeAt(at);
    }
    length += 1;
  }
  return new TextDecoder("utf-8", { ignoreBOM: true }).decode(bytes.subarray(0, length));
}

const events = read("lines").split("\n").filter(Boolean).map((line) => JSON.parse(line));
const report = read("report");

// The report behind the printed text begins with the last line of thread 0.
const cut = report.startsWith("thread 0 ") ? 0 : report.lastIndexOf("\nthread 0 ") + 1;
const printed = report.slice(0, cut);
const end = report.slice(cut).trimEnd();

// What threads share: fields, elements, monitors, what threads do to each other, prints, exceptions, initialisation.
const SHARED = new Set(("reads writes enters exits waits wakes notifies starts interrupts joins prints throws"
  + " begins finds initialises fails ends").split(" "));

const isShared = (event) => SHARED.has(event.op) || event.monitor !== undefined;

// ---- threads

const threads = [...end.matchAll(/^thread (\d+) /gm)].map((found) => Number(found[1]));
const objects = new Map([[0, "main"]]);
for (const event of events) {
  if (event.started !== undefined) objects.set(event.started, event.object);
}
const laneOf = (thread) => Math.max(0, threads.indexOf(thread));

// ---- monitors: who owns one, and who waits on it, as the events tell it

const slots = new Map();
for (const event of events) {
  if (event.monitor !== undefined && !slots.has(event.monitor)) slots.set(event.monitor, slots.size);
}
const BARS = Math.min(6, slots.size);

function doTo(monitors, event) {
  if (event.monitor === undefined) return;
  const known = monitors.get(event.monitor) || { owner: null, count: 0, waiting: [] };
  const waiting = known.waiting.filter((thread) => thread !== event.thread);
  if (event.op === "waits") waiting.push(event.thread);
  const owner = event.count > 0 ? event.thread : null;
  monitors.set(event.monitor, { owner, count: event.count, waiting });
}

// The monitors behind an event. Those of each 256th event are kept.
const kept = [new Map()];
function monitorsAt(place) {
  const whole = Math.floor((place + 1) / 256);
  while (kept.length <= whole) {
    const monitors = new Map(kept[kept.length - 1]);
    const from = (kept.length - 1) * 256;
    for (let at = from; at < from + 256; at += 1) doTo(monitors, events[at]);
    kept.push(monitors);
  }
  const monitors = new Map(kept[whole]);
  for (let at = whole * 256; at <= place; at += 1) doTo(monitors, events[at]);
  return monitors;
}

// ---- what is shown

const MOST_ROWS = 400;
let shown = [];
let step = 0;
let firstRow = 0;

const element = (id) => document.getElementById(id);

function made(name, classes, text) {
  const node = document.createElement(name);
  if (classes) node.className = classes;
  if (text !== undefined) node.textContent = text;
  return node;
}

const didOf = (event) => event.did || event.instruction || "begins";

function placeOf(event) {
  const method = event.method === undefined ? event.class : `${event.class}.${event.method} ${event.offset}`;
  return [event.source, method].filter(Boolean).join(" \u00b7 ");
}

function bar(kind, monitor) {
  const node = made("i", `bar ${kind}`);
  node.style.setProperty("--slot", slots.get(monitor) % 6);
  node.style.setProperty("--color", `var(--bar-${slots.get(monitor) % 6})`);
  node.dataset.monitor = monitor;
  return node;
}

function lane(event, thread, monitors) {
  const node = made("span", "lane");
  node.setAttribute("aria-hidden", "true");
  node.style.setProperty("--thread", laneOf(thread));
  for (const [monitor, state] of monitors) {
    if (state.owner === thread) node.append(bar("owns", monitor));
    if (state.waiting.includes(thread)) node.append(bar("waits", monitor));
  }
  if (event.thread === thread) node.append(made("i", "dot"));
  return node;
}

function row(place, monitors) {
  const event = events[shown[place]];
  const node = made("div", "row");
  node.setAttribute("role", "row");
  node.dataset.event = event.event;
  node.dataset.thread = event.thread;
  node.style.setProperty("--thread", laneOf(event.thread));
  const number = made("span", "number", event.event);
  number.setAttribute("role", "rowheader");
  const text = made("span", "text");
  text.setAttribute("role", "cell");
  text.append(made("span", "apart", `thread ${event.thread}: `), made("span", "did", didOf(event)));
  text.append(made("small", "", placeOf(event)));
  node.append(number, ...threads.map((thread) => lane(event, thread, monitors)), text);
  node.addEventListener("click", () => go(place));
  return node;
}

// The rows around a step, so many that a page of any run is quick.
function layRows(first, last) {
  firstRow = Math.max(0, first);
  const end = Math.min(shown.length, last);
  const monitors = monitorsAt(firstRow > 0 ? shown[firstRow - 1] : -1);
  const rows = [];
  let done = firstRow > 0 ? shown[firstRow - 1] + 1 : 0;
  for (let place = firstRow; place < end; place += 1) {
    for (; done <= shown[place]; done += 1) doTo(monitors, events[done]);
    rows.push(row(place, monitors));
  }
  element("events").replaceChildren(...rows);
  more("earlier", firstRow, "earlier");
  more("later", shown.length - end, "later");
}

function more(id, count, word) {
  element(id).hidden = count === 0;
  element(id).textContent = `${count} ${word} events`;
}

function fact(list, name, value) {
  if (value === undefined || value === "") return;
  list.append(made("dt", "", name), made("dd", "", value));
}

function tellEvent(event) {
  const list = element("event");
  const did = made("dd", "", didOf(event));
  did.id = "did";
  list.replaceChildren(did);
  fact(list, "event", `${event.event} of thread ${event.thread}`);
  fact(list, "line", event.source);
  fact(list, "method", event.method === undefined ? undefined : `${event.class}.${event.method}`);
  fact(list, "class", event.method === undefined ? event.class : undefined);
  fact(list, "bytecode", event.instruction && `${event.offset} ${event.instruction}`);
}

function tellMonitor(monitor, state) {
  const item = made("li");
  const swatch = made("span", "swatch");
  swatch.style.setProperty("--color", `var(--bar-${slots.get(monitor) % 6})`);
  const times = state.count > 1 ? `, entered ${state.count} times` : "";
  const owner = state.owner === null ? "nobody owns it" : `thread ${state.owner} owns it${times}`;
  const waiting = state.waiting.map((thread) => `thread ${thread} waits`);
  item.append(swatch, monitor, made("small", "", [owner, ...waiting].join("; ")));
  item.dataset.monitor = monitor;
  item.dataset.owner = state.owner === null ? "" : state.owner;
  item.dataset.count = state.count;
  item.dataset.waiting = state.waiting.join(" ");
  return item;
}

function tellMonitors(place) {
  const items = [...monitorsAt(place)].map(([monitor, state]) => tellMonitor(monitor, state));
  element("monitors").replaceChildren(...(items.length ? items : [made("li", "none", "none so far")]));
}

// How much of the printed text there is behind each event that prints.
const prints = events.filter((event) => event.printed !== undefined);

function tellPrinted(event) {
  let units = 0;
  for (const print of prints) {
    if (print.event > event.event) break;
    units = print.printed;
  }
  element("printed").textContent = printed.slice(0, units);
}

// ---- steps

function go(place) {
  step = Math.min(Math.max(place, 0), shown.length - 1);
  if (step < 0) return;
  const rows = element("events").children;
  if (step < firstRow || step >= firstRow + rows.length) {
    layRows(step - MOST_ROWS / 2, step + MOST_ROWS / 2);
  }
  for (const old of document.querySelectorAll(".row[aria-current]")) old.removeAttribute("aria-current");
  const current = rows[step - firstRow];
  current.setAttribute("aria-current", "step");
  current.scrollIntoView({ block: "nearest", inline: "nearest" });
  const event = events[shown[step]];
  tellEvent(event);
  tellMonitors(shown[step]);
  tellPrinted(event);
  element("slider").value = step;
  element("slider").setAttribute("aria-valuetext", `event ${event.event}`);
  element("count").textContent = `${step + 1} of ${shown.length}`;
  for (const id of ["first", "back"]) element(id).disabled = step === 0;
  for (const id of ["next", "last"]) element(id).disabled = step === shown.length - 1;
}

// Shows all events, or those that tell of what threads share, and stays where it is, or just before.
function choose(everything) {
  const at = shown.length ? shown[step] : 0;
  shown = [...events.keys()].filter((place) => everything || isShared(events[place]));
  if (!shown.length) shown = [...events.keys()];
  let place = 0;
  while (place + 1 < shown.length && shown[place + 1] <= at) place += 1;
  element("slider").max = Math.max(0, shown.length - 1);
  layRows(place - MOST_ROWS / 2, place + MOST_ROWS / 2);
  go(place);
}

const KEYS = {
  ArrowDown: 1, ArrowRight: 1, ArrowUp: -1, ArrowLeft: -1, PageDown: 10, PageUp: -10, Home: -Infinity, End: Infinity,
};

document.addEventListener("keydown", (key) => {
  if (!(key.key in KEYS) || key.altKey || key.ctrlKey || key.metaKey) return;
  key.preventDefault();
  go(step + KEYS[key.key]);
});
element("first").addEventListener("click", () => go(0));
element("back").addEventListener("click", () => go(step - 1));
element("next").addEventListener("click", () => go(step + 1));
element("last").addEventListener("click", () => go(shown.length - 1));
element("slider").addEventListener("input", () => go(Number(element("slider").value)));
element("everything").addEventListener("change", () => choose(element("everything").checked));
element("earlier").addEventListener("click", () => layRows(firstRow - MOST_ROWS, firstRow + MOST_ROWS));
element("later").addEventListener("click", () => {
  const end = firstRow + element("events").children.length;
  layRows(end - MOST_ROWS, end + MOST_ROWS);
});
window.addEventListener("beforeprint", () => layRows(0, Math.min(shown.length, 5000)));

// ---- the whole

function begin() {
  const named = events.find((event) => event.class !== undefined);
  const name = named ? `${named.class}: a run` : "A run";
  document.title = name;
  element("title").textContent = name;
  const count = (/^events (\d+)$/m.exec(end) || ["", "0"])[1];
  element("about").textContent = `${threads.length} ${threads.length === 1 ? "thread" : "threads"}, ${count} events`;
  document.body.style.setProperty("--threads", threads.length);
  document.body.style.setProperty("--bars", `${BARS * 7 + 14}px`);
  for (const thread of threads) {
    const head = made("span", "text", `thread ${thread} `);
    head.style.setProperty("--thread", laneOf(thread));
    head.append(made("small", "", objects.get(thread) || ""));
    element("lanes").append(head);
  }
  element("end").textContent = end;
  choose(false);
}

begin();
