"use strict";
// The map, its tools, and the answers of the server. No text becomes markup: each is set as textContent or painted.

const LEAST = -(2 ** 31), GREATEST = 2 ** 31 - 1, GREATEST_RADIUS = 2 ** 32 - 1; // of the query language
const MOST_VERTICES = 16;
const CLICK = 4; // pixels that a pointer may move between down and up, for a click
const FINEST = 0.05, COARSEST = 2 ** 32 / 200; // units for a pixel
const COLOURS = ["#b08d57", "#c8324b", "#e0782a", "#8a7f3c", "#888888", "#4a76b5", "#3c8d6e", "#8a5fae"];
const FOUND = "#d01060", NEAREST = "#0a8a4a";

const element = id => document.getElementById(id);
const say = (id, text) => { element(id).textContent = text; };
const canvas = element("map"), pen = canvas.getContext("2d");

const place = {x: 0, y: 0, scale: 1}; // the middle of the view, and the table's units for a pixel; y grows to the north
const shown = {view: null, answers: [], nearest: null, shape: null}; // shapes are in the table's units, as boxes are
let about = null; // what the server gives at the start
let drag = null; // from when the pointer goes down until it goes up
let pinch = null; // from when a second finger goes down until one of them goes up
const fingers = new Map(); // the pointers that are down, by their ids

// ---- places of the table and of the canvas

const clamped = (number, least, greatest) => Math.max(least, Math.min(greatest, Math.round(number)));
const acrossOf = x => (x - place.x) / place.scale + canvas.width / 2;
const downOf = y => canvas.height / 2 - (y - place.y) / place.scale;
const xOf = across => clamped(place.x + (across - canvas.width / 2) * place.scale, LEAST, GREATEST);
const yOf = down => clamped(place.y + (canvas.height / 2 - down) * place.scale, LEAST, GREATEST);
const pointOf = event => ({x: xOf(event.offsetX), y: yOf(event.offsetY)});
const isInView = ([x1, x2, y1, y2]) => x1 <= xOf(canvas.width) && x2 >= xOf(0) && y1 <= yOf(0) && y2 >= yOf(canvas.height);

// Has a box in the middle of the view, and all of it there.
function moveTo([x1, x2, y1, y2]) {
  place.x = (x1 + x2) / 2;
  place.y = (y1 + y2) / 2;
  place.scale = Math.max(place.scale, 1.05 * Math.max((x2 - x1) / canvas.width, (y2 - y1) / canvas.height));
  draw();
  look();
}

// ---- layers

function layersChosen() { // null where all are
  const boxes = [...document.querySelectorAll("#layers input")];
  const chosen = boxes.filter(box => box.checked).map(box => Number(box.value));
  return chosen.length === boxes.length ? null : chosen;
}

function isNoLayerChosen() {
  const chosen = layersChosen();
  return chosen !== null && chosen.length === 0;
}

function onWords() {
  const chosen = layersChosen();
  return chosen === null ? "" : ` on ${chosen.join(",")}`;
}

const colourOf = layer => COLOURS[layer % COLOURS.length];

function addLayer(layer) {
  const [label, box, colour] = ["label", "input", "i"].map(kind => document.createElement(kind));
  box.type = "checkbox";
  box.checked = true;
  box.value = layer.number;
  box.onchange = () => {
    look();
    if (shown.shape !== null) askShape();
  };
  colour.style.background = colourOf(layer.number);
  label.append(box, colour, layer.name);
  element("layers").append(label);
}

// ---- questions

async function get(path, parameters = {}) {
  try {
    const reply = await fetch(`${path}?${new URLSearchParams(parameters)}`);
    return reply.ok ? await reply.json() : {fault: await reply.text()};
  } catch (error) {
    return {fault: String(error)};
  }
}

// Does a work for one call at a time; of those that come meanwhile, for the last.
function latest(work) {
  let isBusy = false, waiting = null;
  return async (...last) => {
    waiting = last;
    if (isBusy) return;
    isBusy = true;
    while (waiting !== null) {
      const now = waiting;
      waiting = null;
      await work(...now);
    }
    isBusy = false;
  };
}

const look = latest(async () => {
  const [x1, x2, y1, y2] = [xOf(0), xOf(canvas.width), yOf(canvas.height), yOf(0)];
  const chosen = layersChosen(), line = `count window ${x1} ${x2} ${y1} ${y2}${onWords()}`;
  const on = chosen === null ? {} : {on: chosen.join(",")};
  const view = isNoLayerChosen() ? {fault: "no layer is chosen"} : await get("view", {x1, x2, y1, y2, ...on});
  shown.view = view;
  say("view-line", line);
  say("view-reply", view.fault ?? `${view.count} boxes${view.boxes ? "" : ", shown as counts"}`);
  draw();
});

const lookNear = latest(async ({x, y}) => {
  const all = layersChosen() === null;
  const line = all ? `nearest 1 ${x} ${y}` : `find all${onWords()} near ${x} ${y} first 1`;
  const reply = isNoLayerChosen() ? {fault: "no layer is chosen"} : await get("ask", {q: line});
  shown.nearest = reply.answers?.[0] ?? null;
  say("near-line", line);
  say("near-reply", reply.fault ?? reply.answers.map(wordsOf).join() + costOf(reply));
  draw();
});

const wordsOf = answer => [answer.id, answer.score, answer.name ?? ""].join(" ").trim();
const costOf = reply => (reply.nodes === null ? "" : `; the query opens ${reply.nodes} nodes`);

const ask = latest(async (line, countLine = null) => {
  element("line").value = line;
  const replies = await Promise.all([line, countLine].map(q => (q === null ? null : get("ask", {q}))));
  tell(line, ...replies);
  draw();
});

function tell(line, reply, count) {
  const answers = reply.answers ?? [];
  shown.answers = answers.filter(answer => answer.box);
  const total = count?.total === undefined ? `ok, ${reply.total}` : `${reply.total} of ${count.total} boxes`;
  say("line-reply", reply.fault ?? total + costOf(reply));
  if (shown.answers.length > 0 && !shown.answers.some(answer => isInView(answer.box))) moveTo(shown.answers[0].box);
  element("line-reply").dataset.line = line;
  element("answers").replaceChildren(...answers.map(rowOf));
}

function rowOf(answer) {
  const row = document.createElement("tr");
  for (const text of [answer.id, answer.score, answer.name ?? ""]) row.insertCell().textContent = text;
  if (answer.box) row.onclick = () => moveTo(answer.box);
  return row;
}

// ---- shapes

function regionOf(shape) {
  if (shape.kind === "polygon") {
    return [`polygon ${shape.vertices.length}`, ...shape.vertices.map(({x, y}) => `${x} ${y}`)].join(" ");
  }
  const {from, to} = shape;
  if (shape.kind === "circle") {
    return `circle ${from.x} ${from.y} ${clamped(radiusOf(shape), 0, GREATEST_RADIUS)}`;
  }
  const ordered = (one, other) => `${Math.min(one, other)} ${Math.max(one, other)}`;
  return `window ${ordered(from.x, to.x)} ${ordered(from.y, to.y)}`;
}

const radiusOf = ({from, to}) => Math.hypot(to.x - from.x, to.y - from.y);

function askShape() {
  if (shown.shape.kind === "polygon" && shown.shape.vertices.length < 3) return;
  if (isNoLayerChosen()) return;
  const region = regionOf(shown.shape) + onWords();
  ask(`find ${region} first ${about.answers}`, `count ${region}`);
}

// The boxes that hold a point, the smallest first, and the one nearest to it.
function askPoint({x, y}) {
  shown.shape = null;
  lookNear({x, y});
  if (isNoLayerChosen()) return;
  const region = `covers ${x} ${x} ${y} ${y}${onWords()}`;
  ask(`find ${region} smallest first ${about.answers}`, `count ${region}`);
}

function addVertex(vertex) {
  const vertices = shown.shape?.kind === "polygon" ? shown.shape.vertices : [];
  shown.shape = {kind: "polygon", vertices: vertices.length < MOST_VERTICES ? [...vertices, vertex] : [vertex]};
}

function clear() {
  shown.shape = null;
  shown.answers = [];
  draw();
}

// ---- painting

function paint([x1, x2, y1, y2], fill, line) {
  const across = acrossOf(x1), down = downOf(y2);
  const wide = Math.max(1, acrossOf(x2) - across), high = Math.max(1, downOf(y1) - down);
  if (fill !== null) {
    pen.fillStyle = fill;
    pen.fillRect(across, down, wide, high);
  }
  if (line !== null) {
    pen.strokeStyle = line;
    pen.strokeRect(across, down, wide, high);
  }
}

function paintCounts({across, along, counts}) {
  const most = Math.log1p(Math.max(...counts));
  counts.forEach((count, at) => {
    if (count === 0) return;
    const [x1, x2] = across[at % across.length], [y1, y2] = along[Math.floor(at / across.length)];
    paint([x1, x2 + 1, y1, y2 + 1], `rgba(28, 72, 140, ${0.08 + 0.87 * Math.log1p(count) / most})`, null);
  });
}

function paintBox({box, layer, name}) {
  paint(box, `${colourOf(layer)}40`, colourOf(layer));
  if (name !== undefined && (box[1] - box[0]) / place.scale > 70) {
    pen.fillStyle = "#222";
    pen.fillText(name, acrossOf(box[0]) + 3, downOf(box[3]) + 12);
  }
}

function paintShape(shape) {
  pen.strokeStyle = FOUND;
  pen.beginPath();
  if (shape.kind === "polygon") {
    for (const {x, y} of shape.vertices) pen.lineTo(acrossOf(x), downOf(y));
    pen.closePath();
  } else if (shape.kind === "circle") {
    pen.arc(acrossOf(shape.from.x), downOf(shape.from.y), radiusOf(shape) / place.scale, 0, 2 * Math.PI);
  } else {
    const [left, top] = [acrossOf(shape.from.x), downOf(shape.from.y)];
    pen.rect(left, top, acrossOf(shape.to.x) - left, downOf(shape.to.y) - top);
  }
  pen.stroke();
}

function draw() {
  pen.clearRect(0, 0, canvas.width, canvas.height);
  if (shown.view?.counts) paintCounts(shown.view);
  for (const box of shown.view?.boxes ?? []) paintBox(box);
  for (const answer of shown.answers) paint(answer.box, `${FOUND}28`, FOUND);
  if (shown.nearest !== null) paint(shown.nearest.box, null, NEAREST);
  if (shown.shape !== null) paintShape(shown.shape);
}

// ---- the pointer, the wheel and the keys

const toolChosen = () => document.querySelector("#tools input:checked").value;

// Zooms, and what is under a pixel stays there.
function zoomAt(across, down, times) {
  const scale = Math.max(FINEST, Math.min(COARSEST, place.scale * times));
  place.x += (across - canvas.width / 2) * (place.scale - scale);
  place.y -= (down - canvas.height / 2) * (place.scale - scale);
  place.scale = scale;
  draw();
  look();
}

// The middle of two fingers, and how far they are apart.
function spanOf([one, other]) {
  const apart = Math.max(1, Math.hypot(one.across - other.across, one.down - other.down));
  return {across: (one.across + other.across) / 2, down: (one.down + other.down) / 2, apart};
}

function movePinch() {
  const span = spanOf([...fingers.values()]);
  place.x -= (span.across - pinch.across) * place.scale;
  place.y += (span.down - pinch.down) * place.scale;
  zoomAt(span.across, span.down, pinch.apart / span.apart);
  pinch = span;
}

canvas.onpointerdown = event => {
  canvas.setPointerCapture(event.pointerId);
  fingers.set(event.pointerId, {across: event.offsetX, down: event.offsetY});
  if (fingers.size > 1) { // two fingers zoom, with whatever tool
    if (drag !== null && drag.tool !== "polygon") shown.shape = null;
    drag = null;
    pinch = fingers.size === 2 ? spanOf([...fingers.values()]) : null;
    return;
  }
  drag = {tool: toolChosen(), across: event.offsetX, down: event.offsetY, place: {...place}, from: pointOf(event)};
};

canvas.onpointermove = event => {
  if (fingers.has(event.pointerId)) fingers.set(event.pointerId, {across: event.offsetX, down: event.offsetY});
  if (pinch !== null) {
    movePinch();
  } else if (fingers.size > 0 && drag === null) {
    return; // one of two fingers is left
  } else if (drag === null) {
    lookNear(pointOf(event));
  } else if (drag.tool === "pan") {
    place.x = drag.place.x - (event.offsetX - drag.across) * place.scale;
    place.y = drag.place.y + (event.offsetY - drag.down) * place.scale;
    look();
  } else if (drag.tool !== "polygon") {
    shown.shape = {kind: drag.tool, from: drag.from, to: pointOf(event)};
  }
  draw();
};

canvas.onpointerup = event => {
  lift(event);
  if (drag === null) return;
  const {tool, from, across, down} = drag;
  drag = null;
  const isClick = Math.hypot(event.offsetX - across, event.offsetY - down) <= CLICK;
  if (tool === "pan" && isClick) askPoint(pointOf(event));
  if (tool === "pan") return;
  if (tool === "polygon") addVertex(pointOf(event));
  else shown.shape = {kind: tool, from, to: pointOf(event)};
  draw();
  askShape();
};

function lift(event) {
  fingers.delete(event.pointerId);
  pinch = null;
}

canvas.onpointercancel = event => {
  lift(event);
  drag = null;
};

canvas.addEventListener("wheel", event => {
  event.preventDefault();
  zoomAt(event.offsetX, event.offsetY, 2 ** (event.deltaY / 300));
}, {passive: false});

element("nearer").onclick = () => zoomAt(canvas.width / 2, canvas.height / 2, 1 / 2);
element("farther").onclick = () => zoomAt(canvas.width / 2, canvas.height / 2, 2);

onkeydown = event => { if (event.key === "Escape") clear(); };
element("tools").onchange = clear;
element("line").onkeydown = event => {
  if (event.key !== "Enter") return;
  event.preventDefault();
  shown.shape = null;
  ask(element("line").value);
};

// ---- the start

function fit() {
  canvas.width = canvas.clientWidth;
  canvas.height = canvas.clientHeight;
}

async function start() {
  fit();
  about = await get("about");
  if (about.fault !== undefined) {
    say("view-reply", about.fault);
    return;
  }
  const [x1, x2, y1, y2] = about.bounds;
  place.x = (x1 + x2) / 2;
  place.y = (y1 + y2) / 2;
  place.scale = Math.max(FINEST, 1.05 * Math.max((x2 - x1) / canvas.width, (y2 - y1) / canvas.height));
  about.layers.forEach(addLayer);
  onresize = () => { fit(); look(); };
  look();
}

start();
