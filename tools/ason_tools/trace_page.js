"use strict";
// The page of a run. `data` has the map, what each event changed, and the messages; `lines` are the events of the trace.
const data = JSON.parse(document.getElementById("data").textContent);
const lines = document.getElementById("events").textContent.split("\n");
if (lines.length === 1 && lines[0] === "") lines.pop();
const SVG = "http://www.w3.org/2000/svg";
const STATES = { asking: "#868e96", bare: "#1f77b4", pairing: "#74a9cf", guarded: "#2ca02c", turning: "#e8b000", turned: "#e67700", stuck: "#c92a2a", blocked: "#a61e4d" };
const COLOURS = matchMedia("(prefers-color-scheme: dark)").matches ? data.dark : data.colours;
const LINKS = new Map(data.links.map((row) => [row[0], row]));
const NAMES = Object.keys(data.marks);
const MOST_SHOWN = 300;
const state = { at: 0, legs: new Map(), calls: new Map(), done: 0, picked: null, timer: 0, between: new Set() };
const rounds = roundsOf();
const steps = stepsOf();

function byId(id) { return document.getElementById(id); }

function make(name, attributes, parent, text) {
  const made = name.startsWith("svg:") ? document.createElementNS(SVG, name.slice(4)) : document.createElement(name);
  for (const [key, value] of Object.entries(attributes)) made.setAttribute(key, value);
  if (text !== undefined) made.textContent = text;
  if (parent) parent.append(made);
  return made;
}

// What Enter and a click do alike.
function answers(element, body) {
  element.setAttribute("tabindex", "0");
  element.setAttribute("role", "button");
  element.addEventListener("click", body);
  element.addEventListener("keydown", (event) => { if (event.key === "Enter") { event.stopPropagation(); body(event); } });
}

// The round of each line: how often its node has ticked; of a post, how often any has.
function roundsOf() {
  const ticks = new Map(), found = [0];
  let most = 0;
  for (const line of lines) {
    const stamp = line.indexOf(" "), word = line.indexOf(" ", stamp + 1);
    const node = line.slice(stamp + 1, word);
    if (line.endsWith(" tick")) {
      ticks.set(node, (ticks.get(node) || 0) + 1);
      most = Math.max(most, ticks.get(node));
    }
    found.push(node === "-" ? most : ticks.get(node) || 0);
  }
  return found;
}

// The lines at which the network changes, or a failure or an order is posted.
function stepsOf() {
  const found = new Set(data.changes.map((row) => row[0]));
  lines.forEach((line, place) => { if (line.includes(" - post ")) found.add(place + 1); });
  return [...found].sort((a, b) => a - b);
}

function apply(row) {
  for (const [map, changed] of [[state.legs, row[1]], [state.calls, row[2]]]) {
    for (const [key, value] of Object.entries(changed)) {
      if (value === null) map.delete(key); else map.set(key, value);
    }
  }
}

// Goes to the state behind this line: on from where it is, or anew from the start.
function go(to) {
  const at = Math.max(0, Math.min(lines.length, Math.trunc(to) || 0));
  if (at < state.at) {
    state.legs.clear();
    state.calls.clear();
    state.done = 0;
  }
  while (state.done < data.changes.length && data.changes[state.done][0] <= at) apply(data.changes[state.done++]);
  state.at = at;
  show();
}

function step(way, isLine) {
  const by = isLine || byId("by").value === "line";
  if (by) return go(state.at + way);
  const next = way > 0 ? steps.find((place) => place > state.at) : steps.findLast((place) => place < state.at);
  go(next === undefined ? (way > 0 ? lines.length : 0) : next);
}

function play() {
  if (state.timer) {
    clearInterval(state.timer);
    state.timer = 0;
  } else {
    if (state.at >= lines.length) go(0);
    state.timer = setInterval(() => { if (state.at >= lines.length) play(); else step(1, false); }, 400);
  }
  byId("play").textContent = state.timer ? "pause" : "play";
}

function failedLinks() {
  const groups = new Map();
  for (const [event, verb, group, links] of data.failures) {
    if (event > state.at) break;
    if (verb === "fail") groups.set(group, links); else groups.delete(group);
  }
  return new Set([...groups.values()].flat());
}

function legOf(key, text) {
  const [lsp, node] = key.split(" ");
  const [role, phase, incoming, outgoing] = text.split(" ");
  return { lsp, node, role, phase, incoming, outgoing, link: outgoing === "-" ? 0 : Number(outgoing.split("/")[0]) };
}

function colourOf(lsp) {
  const place = NAMES.indexOf(data.owners[lsp]);
  return place < 0 ? "var(--soft)" : COLOURS[place % COLOURS.length];
}

function isBetween(route, share) {
  const [first, last] = [route[0], route[route.length - 1]];
  return [first[0] + (last[0] - first[0]) * share, first[1] + (last[1] - first[1]) * share];
}

// The corners of a lane that lies this far beside a link.
function lane(corners, aside) {
  const [[x1, y1], [x2, y2]] = [corners[0], corners[corners.length - 1]];
  const long = Math.hypot(x2 - x1, y2 - y1) || 1;
  const side = [-(y2 - y1) / long * aside, (x2 - x1) / long * aside];
  return corners.map(([x, y]) => [x + side[0], y + side[1]]);
}

function pointsOf(corners) { return corners.map((pair) => pair.join(",")).join(" "); }

const DASHES = { live: "none", held: "8 5", armed: "3 3", asked: "2 5", closing: "1 4", falling: "1 4" };

// An LSP on a link: a line whose dashes tell its phase, with an arrow towards the node that takes it.
function drawLeg(parent, leg, link, aside, width) {
  const corners = lane(link[3], aside);
  const paint = colourOf(leg.lsp);
  const style = { points: pointsOf(corners), fill: "none", stroke: paint, "stroke-width": width, "stroke-dasharray": DASHES[leg.phase] };
  make("svg:title", {}, make("svg:polyline", style, parent), `${leg.lsp} ${leg.phase}`);
  const way = leg.node === link[1] ? corners : [...corners].reverse();
  const [from, to] = [way[way.length - 2], way[way.length - 1]];
  const long = Math.hypot(to[0] - from[0], to[1] - from[1]) || 1;
  const along = [(to[0] - from[0]) / long, (to[1] - from[1]) / long];
  const tip = [to[0] - along[0] * 17, to[1] - along[1] * 17];
  const back = [tip[0] - along[0] * 9, tip[1] - along[1] * 9];
  const half = Math.min(4.5, width + 1);
  const head = [tip, [back[0] - along[1] * half, back[1] + along[0] * half], [back[0] + along[1] * half, back[1] - along[0] * half]];
  make("svg:polygon", { points: pointsOf(head), fill: paint }, parent);
}

// What stands on the map at all lines: links, nodes and their names.
function drawMap() {
  const map = byId("map");
  map.setAttribute("viewBox", `0 0 ${data.size[0]} ${data.size[1]}`);
  const layers = {};
  for (const name of ["links", "legs", "numbers", "nodes"]) layers[name] = make("svg:g", { id: `map-${name}` }, map);
  for (const [number, , , corners, at] of data.links) {
    make("svg:polyline", { points: pointsOf(corners), fill: "none", stroke: "var(--faint)", "stroke-width": 3, id: `link-${number}` }, layers.links);
    const group = make("svg:g", { "data-pick": `link ${number}`, "aria-label": `link ${number}` }, layers.numbers);
    const wide = 10 + 6.4 * String(number).length;
    make("svg:rect", { x: at[0] - wide / 2, y: at[1] - 8, width: wide, height: 16, rx: 3, fill: "var(--paper)", stroke: "var(--faint)", "stroke-width": 1.5 }, group);
    make("svg:text", { x: at[0], y: at[1] + 4, "text-anchor": "middle", "font-size": 11, fill: "var(--ink)", "stroke-width": 0 }, group, number);
    answers(group, () => pick("link", number));
  }
  for (const [name, x, y, left, base, wide] of data.nodes) {
    const group = make("svg:g", { "data-pick": `node ${name}`, "aria-label": `node ${name}` }, layers.nodes);
    make("svg:circle", { cx: x, cy: y, r: 11, fill: "var(--ink)", "stroke-width": 4 }, group);
    const text = { x: left, y: base, textLength: wide, lengthAdjust: "spacingAndGlyphs", "font-size": 14, "font-weight": "bold", fill: "var(--ink)", "stroke-width": 0 };
    make("svg:text", text, group, name);
    answers(group, () => pick("node", name));
  }
}

const MOST_LANES = 20, BROADEST = 26, FIBRE = 8;

// The legs and the failures of this line: a lane for each LSP, or the load of the links and the call that was picked.
function showMap() {
  const layer = byId("map-legs");
  layer.replaceChildren();
  const failed = failedLinks(), onLink = new Map(), isLoad = NAMES.length > MOST_LANES;
  for (const [key, text] of state.legs) {
    const leg = legOf(key, text);
    if (leg.link) onLink.set(leg.link, [...(onLink.get(leg.link) || []), leg]);
  }
  for (const link of data.links) {
    const legs = onLink.get(link[0]) || [], isDown = failed.has(link[0]);
    if (isLoad) drawLoad(layer, link, legs, isDown); else drawLanes(layer, link, legs, isDown);
    if (isDown) drawCross(layer, isBetween(link[3], 0.5), link[4]);
  }
}

function drawBed(link, width, isDown, opacity) {
  const line = byId(`link-${link[0]}`);
  line.setAttribute("stroke", isDown ? "var(--fault)" : "var(--faint)");
  line.setAttribute("stroke-width", width);
  line.setAttribute("stroke-opacity", opacity);
}

function drawLanes(layer, link, legs, isDown) {
  const gap = Math.min(6, BROADEST / Math.max(1, legs.length));
  drawBed(link, legs.length ? gap * (legs.length - 1) + 9 : 3, isDown, legs.length ? 0.4 : 1);
  legs.forEach((leg, place) => drawLeg(layer, leg, link, gap * (place - (legs.length - 1) / 2), Math.min(3.6, gap * 0.7)));
}

// A band for each fibre, on the right of its direction: labels in use, then those that are reserved, in the colour of the load.
function drawLoad(layer, link, legs, isDown) {
  drawBed(link, 2 * FIBRE + 2, isDown, 0.4);
  for (const [sender, side] of [[link[1], 1], [link[2], -1]]) {
    const labels = new Map();
    for (const leg of legs) {
      const label = leg.outgoing.split("/")[1];
      if (leg.node === sender && label !== "-") labels.set(label, labels.get(label) || leg.phase === "live");
    }
    const used = [...labels.values()].filter(Boolean).length, share = labels.size / link[5];
    const paint = share >= 1 ? data.loads[4] : data.loads[Math.min(3, Math.floor(share * 4 - 1e-9))];
    let from = 0.5;
    for (const [count, opacity] of [[used, 1], [labels.size - used, 0.45]]) {
      const width = count ? Math.max(1.2, FIBRE * count / link[5]) : 0;
      const style = { points: pointsOf(lane(link[3], side * (from + width / 2))), fill: "none", stroke: paint, "stroke-width": width, "stroke-opacity": opacity };
      if (count) make("svg:polyline", style, layer);
      from += width;
    }
  }
  const mine = legs.filter((leg) => state.picked && state.picked[0] === "call" && data.owners[leg.lsp] === state.picked[1]);
  for (const leg of mine) {
    make("svg:polyline", { points: pointsOf(link[3]), fill: "none", stroke: "var(--paper)", "stroke-width": 9 }, layer);
    drawLeg(layer, leg, link, 0, 4);
  }
}

function drawCross(layer, middle, number) {
  const [x, y] = number || middle;
  const way = `M${x - 14} ${y - 14}L${x + 14} ${y + 14}M${x - 14} ${y + 14}L${x + 14} ${y - 14}`;
  make("svg:path", { d: way, stroke: "var(--fault)", "stroke-width": 4, class: "down" }, layer);
}

function row(parent, text, to, more) {
  const made = make("div", { class: "row" }, parent);
  make("span", {}, made, text);
  if (more) make("span", { class: "state soft" }, made, more);
  if (to !== undefined) {
    made.dataset.line = to;
    answers(made, () => go(to));
  }
  return made;
}

function showCalls() {
  const room = byId("calls"), focused = document.activeElement && document.activeElement.dataset.call;
  room.replaceChildren();
  for (const [place, name] of NAMES.entries()) {
    const text = state.calls.get(name);
    const words = text ? text.split(" ") : null;
    const made = make("div", { class: "row", "data-call": name, "data-pick": `call ${name}` }, room);
    make("span", { class: "chip", style: `background: ${COLOURS[place % COLOURS.length]}` }, made);
    make("span", { class: words ? "" : "soft" }, made, words ? `${name}: ${words[0]} to ${words[1]}` : name);
    const told = words ? words[2] + (words[5] === "-" ? "" : ` (${words[5]})`) : "isn't there";
    make("span", { class: words && (words[2] === "stuck" || words[2] === "blocked") ? "state lost" : "state" }, made, told);
    answers(made, () => pick("call", name));
    if (name === focused) made.focus();
  }
}

function orderOf(key) {
  const [lsp, node] = key.split(" ");
  const [ingress, tunnel, number] = lsp.split(".");
  return [placeOf(ingress), Number(tunnel), Number(number), placeOf(node)];
}

function placeOf(name) { return data.nodes.findIndex((entry) => entry[0] === name); }

function legsText() {
  const keys = [...state.legs.keys()].map((key) => [orderOf(key), key]);
  keys.sort(([a], [b]) => { const at = a.findIndex((part, place) => part !== b[place]); return at < 0 ? 0 : a[at] - b[at]; });
  return keys.map(([, key]) => `leg ${key} ${state.legs.get(key)}`).join("\n");
}

function showNow() {
  const room = byId("now");
  room.replaceChildren();
  for (let place = Math.max(1, state.at - 4); place <= Math.min(lines.length, state.at + 4); place++) {
    make("span", { class: place === state.at ? "now" : "soft" }, room, `${place}: ${lines[place - 1]}\n`);
  }
  const message = data.messages.find((entry) => entry[0] === state.at);
  if (message) make("span", {}, room, `\n${message[6]}`);
}

function show() {
  const round = rounds[state.at];
  byId("where").textContent = `line ${state.at} of ${lines.length}, round ${round}`;
  byId("line").value = state.at;
  history.replaceState(null, "", `#${state.at}`);
  showMap();
  showNow();
  showCalls();
  byId("legs").textContent = legsText();
  const cursor = byId("cursor");
  if (cursor) cursor.setAttribute("transform", `translate(${timeAt(round)} 0)`);
  showLadder();
}

// The lines that concern what was picked, each with what it changed.
function pick(kind, name) {
  state.picked = [kind, name];
  for (const element of document.querySelectorAll("[data-pick]")) element.classList.toggle("chosen", element.dataset.pick === `${kind} ${name}`);
  byId("history-head").textContent = `History of ${kind} ${name}`;
  const room = byId("history");
  room.replaceChildren();
  const found = historyOf(kind, name);
  for (const [event, text] of found) row(room, `${event}: ${text}`, event, `round ${rounds[event]}`);
  if (!found.length) make("span", { class: "soft" }, room, "nothing happened there");
  room.scrollTop = 0;
  if (kind === "call") chooseRoute(name);
  showMap();
}

const CONCERNS = {
  call: { leg: (leg, name) => data.owners[leg.lsp] === name, message: (entry, name) => entry[5] && data.owners[entry[4]] === name },
  link: { leg: (leg, name) => [leg.incoming, leg.outgoing].some((hold) => Number(hold.split("/")[0]) === name), message: () => false },
  node: { leg: (leg, name) => leg.node === name, message: (entry, name) => entry[5] && (entry[1] === name || entry[2] === name) },
};

function historyOf(kind, name) {
  const found = [], concerns = CONCERNS[kind], last = new Map();
  if (kind === "call") for (const [event, word] of data.marks[name] || []) found.push([event, word]);
  for (const [event, legs] of data.changes) {
    for (const [key, text] of Object.entries(legs)) {
      const leg = legOf(key, text === null ? last.get(key) : text);
      if (concerns.leg(leg, name)) found.push([event, text === null ? `leg ${key} is gone` : `leg ${key} ${text}`]);
      if (text !== null) last.set(key, text);
    }
  }
  for (const entry of data.messages) if (concerns.message(entry, name)) found.push([entry[0], `${entry[2]} takes from ${entry[1]} ${entry[3]}`]);
  for (const [event, verb, group, links] of data.failures) if (kind === "link" && links.includes(name)) found.push([event, `${verb} ${group}`]);
  return found.sort((a, b) => a[0] - b[0]);
}

// The nodes of a call's routes stand on the ladder.
function chooseRoute(name) {
  const nodes = new Set();
  for (const entry of data.messages) if (entry[5] && data.owners[entry[4]] === name) { nodes.add(entry[1]); nodes.add(entry[2]); }
  if (nodes.size) choose(nodes);
}

function choose(nodes) {
  state.between = nodes;
  for (const box of document.querySelectorAll("#choice input")) box.checked = nodes.has(box.value);
  showLadder();
}

function drawChoice() {
  for (const [name] of data.nodes) {
    const label = make("label", {}, byId("choice"));
    const box = make("input", { type: "checkbox", value: name }, label);
    label.append(` ${name}`);
    box.addEventListener("change", () => { if (box.checked) state.between.add(name); else state.between.delete(name); showLadder(); });
  }
  byId("all").addEventListener("change", showLadder);
}

const COLUMN = 130, LADDER_ROW = 22, LADDER_LEFT = 150;

// An arrow for each message between the chosen nodes, around this line where there are many.
function showLadder() {
  const room = byId("ladder"), names = data.nodes.map((entry) => entry[0]).filter((name) => state.between.has(name));
  const all = byId("all").checked;
  let found = data.messages.filter((entry) => (all || entry[5]) && state.between.has(entry[1]) && state.between.has(entry[2]));
  const count = found.length;
  if (count > MOST_SHOWN) {
    const next = found.findIndex((entry) => entry[0] >= state.at);
    const first = Math.max(0, Math.min(count - MOST_SHOWN, (next < 0 ? count : next) - MOST_SHOWN / 2));
    found = found.slice(first, first + MOST_SHOWN);
  }
  const focused = document.activeElement && document.activeElement.dataset.message;
  room.replaceChildren();
  const width = LADDER_LEFT + COLUMN * names.length, height = 34 + LADDER_ROW * found.length;
  room.setAttribute("width", width);
  room.setAttribute("height", height);
  room.style.maxWidth = "none";
  names.forEach((name, place) => {
    const x = LADDER_LEFT + COLUMN * (place + 0.5);
    make("svg:line", { x1: x, x2: x, y1: 22, y2: height, stroke: "var(--faint)", "stroke-width": 2 }, room);
    make("svg:text", { x, y: 15, "text-anchor": "middle", "font-size": 12, "font-weight": "bold", fill: "var(--ink)" }, room, name);
  });
  found.forEach((entry, place) => drawMessage(room, entry, place, names, focused));
}

function drawMessage(room, entry, place, names, focused) {
  const [event, sender, taker, words, lsp, handed, text] = entry;
  const y = 40 + LADDER_ROW * place;
  const [from, to] = [sender, taker].map((name) => LADDER_LEFT + COLUMN * (names.indexOf(name) + 0.5));
  const way = Math.sign(to - from), paint = handed ? colourOf(lsp) : "var(--soft)";
  const group = make("svg:g", { "data-message": event, "aria-label": `${words} from ${sender} to ${taker}` }, room);
  make("svg:rect", { x: 0, y: y - 12, width: LADDER_LEFT + COLUMN * names.length, height: LADDER_ROW, fill: event === state.at ? "var(--mark)" : "transparent" }, group);
  make("svg:text", { x: 4, y: y + 4, "font-size": 11, fill: "var(--soft)" }, group, `${event}, round ${rounds[event]}`);
  make("svg:line", { x1: from, x2: to - way * 6, y1: y + 5, y2: y + 5, stroke: paint, "stroke-width": 2, "stroke-dasharray": handed ? "none" : "4 3" }, group);
  make("svg:polygon", { points: `${to},${y + 5} ${to - way * 9},${y + 1} ${to - way * 9},${y + 9}`, fill: paint }, group);
  make("svg:text", { x: (from + to) / 2, y: y + 1, "text-anchor": "middle", "font-size": 10, fill: "var(--ink)" }, group, words);
  const tell = () => { byId("message").textContent = `line ${event}: ${taker} takes from ${sender}${handed ? "" : ", not handed up"}\n\n${text}`; };
  answers(group, (pressed) => { tell(); if (pressed.type === "keydown") go(event); });
  group.addEventListener("focus", tell);
  if (String(event) === focused) group.focus();
}

const TIME_LEFT = 110, TIME_ROW = 20;
let perRound = 4;

function timeAt(round) { return TIME_LEFT + round * perRound; }

// A row for each call: its states as colours from round to round, and a mark for each word.
function drawTimes() {
  const room = byId("times"), most = rounds.reduce((a, b) => Math.max(a, b), 1);
  perRound = Math.max(3, Math.min(24, (room.parentElement.clientWidth - TIME_LEFT - 40) / most));
  const width = TIME_LEFT + most * perRound + 30, height = 26 + TIME_ROW * NAMES.length;
  room.setAttribute("width", width);
  room.setAttribute("height", height);
  room.style.maxWidth = "none";
  const every = [1, 2, 5, 10, 20, 50, 100, 200, 500, 1000, 2000, 5000].find((count) => count * perRound >= 50) || 10000;
  for (let round = 0; round <= most; round += every) make("svg:text", { x: timeAt(round), y: 12, "font-size": 10, "text-anchor": "middle", fill: "var(--soft)" }, room, round);
  NAMES.forEach((name, place) => drawCourse(room, name, 22 + TIME_ROW * place, most));
  make("svg:line", { id: "cursor", x1: 0, x2: 0, y1: 14, y2: height, stroke: "var(--focus)", "stroke-width": 2 }, room);
  for (const [word, paint] of Object.entries(STATES)) {
    make("span", { class: "chip", style: `display: inline-block; background: ${paint}; margin: 0 4px -2px 10px` }, byId("key"));
    byId("key").append(word);
  }
  byId("key").append("   \u25c6 asked, hit, back, released");
}

function drawCourse(room, name, y, most) {
  const marks = data.marks[name];
  const label = make("svg:text", { x: 4, y: y + 12, "font-size": 12, fill: "var(--ink)", "data-pick": `call ${name}` }, room, name);
  answers(label, () => pick("call", name));
  marks.forEach(([event, word], place) => {
    const x = timeAt(rounds[event]), paint = STATES[word.replace("back, ", "")];
    const next = marks.slice(place + 1).find((mark) => STATES[mark[1].replace("back, ", "")] || mark[1] === "gone");
    const end = timeAt(next ? rounds[next[0]] : most) + (next ? 0 : perRound);
    const group = make("svg:g", { "data-mark": `${name} ${word}`, "aria-label": `${name} ${word}, round ${rounds[event]}` }, room);
    if (paint) make("svg:rect", { x, y, width: Math.max(2, end - x), height: 14, rx: 2, fill: paint }, group);
    if (!paint || word.startsWith("back")) make("svg:polygon", { points: `${x},${y} ${x + 6},${y + 7} ${x},${y + 14} ${x - 6},${y + 7}`, fill: word === "hit" ? "var(--fault)" : "var(--ink)", stroke: "var(--paper)" }, group);
    if (paint && end - x > 9 * word.length) make("svg:text", { x: x + 8, y: y + 11, "font-size": 10, fill: "#ffffff" }, group, word);
    make("svg:title", {}, group, `${word}: line ${event}, round ${rounds[event]}`);
    answers(group, () => { go(event); pick("call", name); });
  });
}

function focusFirst(where) {
  const found = document.querySelector(`${where} [tabindex]`);
  if (found) found.focus();
}

const KEYS = {
  ArrowRight: (event) => step(1, event.shiftKey),
  ArrowLeft: (event) => step(-1, event.shiftKey),
  Home: () => go(0),
  End: () => go(lines.length),
  " ": play,
  g: () => { byId("line").focus(); byId("line").select(); },
  c: () => focusFirst("#calls"),
  n: () => focusFirst("#map-nodes"),
  l: () => focusFirst("#map-numbers"),
  t: () => focusFirst("#times"),
  m: () => focusFirst("#ladder"),
  "?": () => byId("help").classList.toggle("open"),
};

function pressed(event) {
  const isField = ["INPUT", "SELECT"].includes(event.target.tagName), isButton = event.target.tagName === "BUTTON";
  if (event.ctrlKey || event.altKey || event.metaKey || isField || (isButton && event.key === " ") || !KEYS[event.key]) return;
  event.preventDefault();
  KEYS[event.key](event);
}

const LARGE = 20;

function begin() {
  document.querySelector("main").classList.toggle("large", data.nodes.length > LARGE);
  drawMap();
  drawChoice();
  drawTimes();
  byId("line").max = lines.length;
  const presses = { first: () => go(0), back: () => step(-1, false), play, on: () => step(1, false), last: () => go(lines.length), ask: KEYS["?"] };
  for (const [id, body] of Object.entries(presses)) byId(id).addEventListener("click", body);
  byId("line").addEventListener("change", () => go(byId("line").value));
  byId("line").addEventListener("keydown", (event) => { if (event.key === "Enter") { go(byId("line").value); byId("line").blur(); } });
  document.addEventListener("keydown", pressed);
  window.addEventListener("hashchange", () => go(location.hash.slice(1)));
  go(location.hash.slice(1) || lines.length);
  if (NAMES.length) pick("call", NAMES[0]);
  document.body.dataset.ready = Math.round(performance.now());
}

begin();
