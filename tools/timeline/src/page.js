// Steps through the events and zooms the picture. Every state shown was written into the page by the program, from the proved library; nothing of the
// machine is computed here.
"use strict";
const byId = (id) => document.getElementById(id);
const data = JSON.parse(byId("data").textContent);
const [picture, plot, axis, tip] = ["picture", "plot", "axis", "tip"].map(byId);
const lines = [...document.querySelectorAll("#lines li")];
const heads = [...document.querySelectorAll("#labels > g")];
const span = Math.max(data.to - data.from, 1);
const events = data.clocks.length - 1;
const signs = ["granted", "waits", "passed", "freed", "refused"];
const phases = ["Idle", "Active", "Running", "Recharging"];
const overhang = 44, names = 174, accounts = 236, widest = 4e6, thin = 4;

const lanes = [...plot.querySelectorAll("g.lane")].map((element) => {
  const [kind, number] = element.id.split("-");
  const [top, bottom] = element.dataset.y.split(" ").map(Number);
  return { element, kind, number: Number(number), top, bottom, marks: [] };
});
const over = [];
for (const [lane, tick, event, sign] of data.marks) (lane < 0 ? over : lanes[lane].marks).push({ tick, event, sign: signs[sign] });

const boxes = [...plot.querySelectorAll("rect[data-t]")].map((element) => {
  const [from, ticks] = element.dataset.t.split(" ").map(Number);
  const [y, height] = ["y", "height"].map((name) => Number(element.getAttribute(name)));
  return { element, from, ticks, labels: data.labels[element.dataset.l], kind: element.classList[0], base: y + (height > 15 ? 13.5 : 9.5) };
});
const budgets = [...plot.querySelectorAll("polyline[data-p]")].map((element) => {
  const [floor, high] = element.dataset.y.split(" ").map(Number);
  const points = element.dataset.p.split(",").map((point) => point.split(" ").map(Number));
  return { element, points: points.map(([tick, left]) => [tick, floor - high * left]) };
});
const arrows = [...plot.querySelectorAll("use[data-x]")].map((element) => ({ element, tick: Number(element.dataset.x) }));
const floors = [...plot.querySelectorAll("line.floor")];
const stop = plot.querySelector("line.stop");
const stopTick = data.clocks[events] - data.from;

let scale = 1, current = 0, chosen = -1, seenFrom = 0, seenTo = 0;

function set(element, attributes) {
  for (const key in attributes) element.setAttribute(key, attributes[key]);
}

function made(parent, name, attributes, content) {
  const element = document.createElementNS("http://www.w3.org/2000/svg", name);
  set(element, attributes);
  if (content !== undefined) element.textContent = content;
  parent.append(element);
  return element;
}

// What the program drew at one scale is drawn here at any: first what it left for that is taken away.
plot.querySelectorAll("text.in, g.m, line.grid").forEach((element) => element.remove());
axis.replaceChildren();
const grid = made(plot, "g", {});
plot.insertBefore(grid, lanes[0].element);
const band = made(plot, "rect", { id: "chosen", x: 0, visibility: "hidden" });
plot.insertBefore(band, lanes[0].element);
const written = made(plot, "g", {});
const cursor = made(plot, "rect", { id: "cursor", y: 0, height: plot.getAttribute("height") });

const textWidth = (text) => 6.2 * [...text].length;

function draw() {
  const width = span * scale;
  for (const part of [plot, axis]) part.setAttribute("width", width + overhang);
  for (const { element, from, ticks } of boxes) {
    set(element, { x: from * scale, width: ticks * scale });
    element.classList.toggle("thin", ticks * scale < thin);
  }
  for (const { element, points } of budgets) element.setAttribute("points", points.map(([tick, y]) => tick * scale + "," + y).join(" "));
  for (const { element, tick } of arrows) element.setAttribute("x", tick * scale);
  for (const element of floors) element.setAttribute("x2", width);
  if (stop) set(stop, { x1: stopTick * scale, x2: stopTick * scale });
  drawSeen();
  drawCursor();
}

// Texts, marks and the axis, for what is seen and a screen to either side.
function drawSeen() {
  seenFrom = picture.scrollLeft - picture.clientWidth;
  seenTo = picture.scrollLeft + 2 * picture.clientWidth;
  for (const part of [grid, written, axis]) part.replaceChildren();
  drawAxis();
  for (const box of boxes) drawLabel(box);
  for (const lane of lanes) drawMarks(written, lane.marks, lane.top);
  drawMarks(axis, over, 0);
  showMark();
}

// The mark of the current event, where it stands by itself.
function showMark() {
  document.querySelector("g.m.now")?.classList.remove("now");
  document.querySelector(`g.m[data-e="${data.first + current - 1}"]`)?.classList.add("now");
}

const seen = (x) => x >= seenFrom && x <= seenTo;

function drawLabel({ from, ticks, labels, kind, base }) {
  const x = from * scale, room = ticks * scale;
  if (x > seenTo || x + room < seenFrom) return;
  const label = labels.find((text) => textWidth(text) + 5 <= room);
  // a box that begins far to the left has its label where it is seen
  const shown = Math.max(x, Math.min(picture.scrollLeft, x + room - textWidth(label ?? "") - 8));
  if (label !== undefined) made(written, "text", { class: "in " + kind, x: shown + 4, y: base }, label);
}

function step() {
  const room = Math.max(44, 7 * String(data.to).length + 10);
  for (let tens = 1; ; tens *= 10) for (const times of [1, 2, 5]) if (tens * times * scale >= room) return tens * times;
}

function drawAxis() {
  const height = Number(plot.getAttribute("height")), width = span * scale, apart = step();
  made(axis, "line", { class: "axis", x1: 0, x2: width, y1: 52, y2: 52 });
  const first = Math.max(data.from, data.from + seenFrom / scale), last = Math.min(data.to, data.from + seenTo / scale);
  for (let tick = Math.ceil(first / apart) * apart; tick <= last; tick += apart) {
    const x = (tick - data.from) * scale;
    made(axis, "line", { class: "axis", x1: x, x2: x, y1: 48, y2: 52 });
    made(axis, "text", { class: "tick", x: Math.max(x, 3.2 * String(tick).length), y: 45 }, tick);
    made(grid, "line", { class: "grid", x1: x, x2: x, y1: 0, y2: height });
  }
  drawNumbers();
}

// The events at each instant but those in which time passes: the tick, the first and the last.
const instants = [];
for (let i = 1; i <= events; i++) {
  const tick = data.clocks[i] - data.from, event = data.first + i - 1, last = instants.at(-1);
  if (data.clocks[i] !== data.clocks[i - 1] || tick < 0) continue;
  if (last && last.tick === tick) last.to = event;
  else instants.push({ tick, from: event, to: event });
}

function drawNumbers() {
  let start = null;
  instants.forEach(({ tick, from, to }, place) => {
    start ??= { from, x: tick * scale };
    const label = start.from === to ? String(to) : start.from + "–" + to;
    const next = instants[place + 1];
    if (next && next.tick * scale - start.x < textWidth(label) + 8) return;
    if (seen(start.x)) made(axis, "text", { class: "event", x: start.x, y: 24 }, label);
    start = null;
  });
}

// A line of the listing and what happened.
const said = (line) => line.firstChild.textContent + " ·" + line.lastChild.textContent;

const markWidth = (mark) => 15 + 6.2 * String(mark.event).length;

// Marks at one instant stand side by side; those that have no room before the next instant become one.
function drawMarks(parent, marks, y) {
  let start = 0;
  for (let end = 1; end <= marks.length; end++) {
    const next = marks[end];
    if (next && next.tick === marks[end - 1].tick) continue;
    let x = marks[start].tick * scale;
    const group = marks.slice(start, end), room = (next ? next.tick * scale : span * scale + overhang) - x;
    const wide = group.reduce((sum, mark) => sum + markWidth(mark), 0);
    if (group[0].tick === group.at(-1).tick && wide <= room) {
      for (const mark of group) {
        drawMark(parent, [mark], x, y);
        x += markWidth(mark);
      }
    } else if (!next || 22 + 6.2 * String(group.length).length <= room) drawMark(parent, group, x, y);
    else continue;
    start = end;
  }
}

function drawMark(parent, marks, x, y) {
  if (!seen(x)) return;
  const [sign, content] = marks.length === 1 ? [marks[0].sign, marks[0].event] : ["several", "×" + marks.length];
  const group = made(parent, "g", { class: "m " + sign, transform: `translate(${x} ${y})`, "data-e": content });
  const told = marks.slice(0, 12).map((mark) => said(lines[mark.event - data.first]));
  made(group, "title", {}, told.concat(marks.length > 12 ? [`and ${marks.length - 12} more`] : []).join("\n"));
  made(group, "use", { href: "#" + sign });
  made(group, "text", { x: 10, y: 9 }, content);
}

function drawCursor() {
  const at = (place) => Math.max(0, data.clocks[Math.max(place, 0)] - data.from) * scale;
  set(cursor, { x: at(current - 1), width: Math.max(at(current) - at(current - 1), 0.5) });
}

// The entry as it was after an event: the last change up to then.
function entry(kind, number, place) {
  const rows = data[kind][number], event = data.first + place - 1;
  let low = 0, high = rows.length - 1;
  while (low < high) {
    const middle = (low + high + 1) >> 1;
    if (rows[middle][0] <= event) low = middle;
    else high = middle - 1;
  }
  return rows[low].slice(1);
}

const taskName = (number) => data.tasks[number];
const resourceName = (number) => data.resources[number];
const serverName = (number) => (data.tasks[number] === "T" + number ? "S" + number : `S${number} ${data.tasks[number]}`);

function serverCells(number, place) {
  const [phase, budget, deadline, own, lent, spin, word, task] = entry("server", number, place);
  const doing = word === 1 ? "executes " + taskName(task) : word === 2 ? "spins for " + taskName(task) : phases[phase];
  return [serverName(number), doing, budget, deadline, own, lent, spin];
}

function taskCells(number, place) {
  const [mode, awaited, executor, executed, ...held] = entry("task", number, place);
  let doing = mode === 0 ? "suspended" : executor >= 0 ? "executes in " + serverName(executor) : "ready";
  if (mode === 2) {
    const [owner, ...queue] = entry("resource", awaited, place);
    const ahead = [owner, ...queue.slice(0, queue.indexOf(number))].filter((task) => task >= 0);
    doing = `waits for ${resourceName(awaited)} behind ${ahead.map(taskName).join(", ")}`;
  }
  return [taskName(number), doing, held.map(resourceName).join(", ") || "–", executed];
}

function resourceCells(number, place) {
  const [owner, ...queue] = entry("resource", number, place);
  return [resourceName(number), owner < 0 ? "free" : taskName(owner), queue.map(taskName).join(", ") || "–"];
}

const tables = {
  server: ["Servers", ["", "does", "budget", "deadline", "own", "lent", "spin"], serverCells],
  task: ["Tasks", ["", "does", "holds", "executed"], taskCells],
  resource: ["Resources", ["", "owner", "queue"], resourceCells],
};

// An entry in a few lines, for whoever points at it or listens.
function told({ kind, number }, place) {
  const [, columns, cells] = tables[kind];
  const values = cells(number, place);
  return values[0] + ": " + values.slice(1).map((value, i) => (i === 0 && kind !== "resource" ? value : columns[i + 1] + " " + value)).join(", ");
}

function drawStates() {
  const states = byId("states");
  states.replaceChildren();
  for (const kind in tables) {
    const [caption, columns, cells] = tables[kind];
    if (data[kind].length === 0) continue;
    const table = document.createElement("table");
    table.createCaption().textContent = caption;
    const head = table.createTHead().insertRow();
    for (const column of columns) head.append(Object.assign(document.createElement("th"), { textContent: column, scope: "col" }));
    const body = table.createTBody();
    data[kind].forEach((_, number) => {
      const row = body.insertRow();
      if (lanes[chosen]?.kind === kind && lanes[chosen].number === number) row.className = "chosen";
      cells(number, current).forEach((value, i) => {
        const cell = row.insertCell();
        cell.textContent = value;
        if (i === 1 || (i === 2 && kind !== "server")) cell.className = "wide";
      });
    });
    states.append(table);
  }
}

function tell() {
  const line = current > 0 ? said(lines[current - 1]) : "before the first event";
  const lane = chosen < 0 ? "" : " · " + told(lanes[chosen], current);
  byId("now").textContent = `Tick ${data.clocks[current]}: ${line}${lane}`;
}

function go(place) {
  lines[current - 1]?.removeAttribute("aria-current");
  current = Math.min(Math.max(place, 0), events);
  const line = lines[current - 1];
  line?.setAttribute("aria-current", "step");
  line?.scrollIntoView({ block: "nearest" });
  byId("event").value = data.first + current - 1;
  const x = (data.clocks[current] - data.from) * scale, room = picture.clientWidth - names;
  if (x < picture.scrollLeft || x > picture.scrollLeft + room) picture.scrollLeft = x - room / 2;
  drawCursor();
  showMark();
  drawStates();
  tell();
}

function choose(place) {
  heads[chosen]?.classList.remove("chosen");
  chosen = Math.min(Math.max(place, 0), lanes.length - 1);
  heads[chosen].classList.add("chosen");
  const { top, bottom } = lanes[chosen];
  set(band, { y: top - 3, height: bottom - top - 2, width: "100%", visibility: "visible" });
  if (top < picture.scrollTop || bottom > picture.scrollTop + picture.clientHeight - 60) picture.scrollTop = top - 20;
  drawStates();
  tell();
}

// The scale at which all of it is seen, the accounts too unless that leaves little room.
function fitting() {
  const room = picture.clientWidth - names - overhang - 16;
  return Math.max(room - accounts >= 560 ? room - accounts : room, 320) / span;
}

function zoom(wanted) {
  const room = picture.clientWidth - names, x = (data.clocks[current] - data.from) * scale - picture.scrollLeft;
  const kept = x >= 0 && x <= room ? x : room / 2, tick = (picture.scrollLeft + kept) / scale;
  scale = Math.max(Math.min(wanted, 240, widest / span), Math.min(fitting(), 240));
  draw();
  picture.scrollLeft = tick * scale - kept;
}

const keys = {
  ArrowRight: () => go(current + 1), ArrowLeft: () => go(current - 1), Home: () => go(0), End: () => go(events),
  ArrowDown: () => choose(chosen + 1), ArrowUp: () => choose(chosen - 1),
  "+": () => zoom(scale * 1.5), "=": () => zoom(scale * 1.5), "-": () => zoom(scale / 1.5), 0: () => zoom(0),
};

document.addEventListener("keydown", (press) => {
  const aside = press.target.closest("aside") && /Up|Down/.test(press.key);
  if (press.target.tagName === "INPUT" || aside || press.ctrlKey || press.metaKey || press.altKey || !Object.hasOwn(keys, press.key)) return;
  press.preventDefault();
  keys[press.key]();
});
const buttons = { first: "Home", back: "ArrowLeft", next: "ArrowRight", last: "End", out: "-", in: "+", fit: "0" };
for (const id in buttons) byId(id).addEventListener("click", keys[buttons[id]]);
byId("event").addEventListener("change", (change) => go(Number(change.target.value) - data.first + 1));
lines.forEach((line, i) => line.addEventListener("click", () => go(i + 1)));
heads.forEach((head, i) => {
  set(head, { tabindex: 0, role: "button", "aria-label": lanes[i].kind + " " + head.querySelector("title").textContent });
  for (const event of ["focus", "click"]) head.addEventListener(event, () => choose(i));
});

// The last event up to a tick.
function placeAt(tick) {
  let low = 0, high = events;
  while (low < high) {
    const middle = (low + high + 1) >> 1;
    if (data.clocks[middle] <= tick) low = middle;
    else high = middle - 1;
  }
  return low;
}

plot.addEventListener("pointermove", (move) => {
  const frame = plot.getBoundingClientRect(), y = move.clientY - frame.top;
  const lane = lanes.find(({ top, bottom }) => y >= top && y < bottom);
  const place = placeAt(data.from + (move.clientX - frame.left) / scale);
  tip.hidden = !lane || move.target.closest("g.m");
  if (tip.hidden) return;
  tip.textContent = told(lane, place) + `\nsince tick ${data.clocks[place]}, after event ${data.first + place - 1}`;
  tip.style.left = Math.min(move.clientX + 14, innerWidth - 340) + "px";
  tip.style.top = Math.min(move.clientY + 16, innerHeight - tip.offsetHeight - 8) + "px";
});
plot.addEventListener("pointerleave", () => (tip.hidden = true));
plot.addEventListener("click", (click) => go(placeAt(data.from + (click.clientX - plot.getBoundingClientRect().left) / scale)));
picture.addEventListener("scroll", () => {
  if (picture.scrollLeft < seenFrom + picture.clientWidth / 2 || picture.scrollLeft > seenTo - 1.5 * picture.clientWidth) drawSeen();
});
picture.addEventListener("wheel", (wheel) => {
  if (!wheel.ctrlKey) return;
  wheel.preventDefault();
  zoom(scale * (wheel.deltaY < 0 ? 1.2 : 1 / 1.2));
}, { passive: false });
addEventListener("resize", () => zoom(scale));

byId("event").min = data.first - 1;
byId("event").max = data.first + events - 1;
zoom(0);
go(0);
