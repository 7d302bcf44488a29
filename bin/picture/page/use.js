// The view that the reader moves: window, axis, the entry that is selected, and what is under the pointer.
const view = { axis: scene.axis, low: axes[scene.axis].low, high: axes[scene.axis].high };
const box = document.getElementById("view"), canvas = document.getElementById("lanes");
const tip = document.getElementById("tip"), told = document.getElementById("told");
const LEAST_SPAN = 4, LINES_AROUND = 3, LINES_IN_TIP = 8, GRASP = 15;
let selected = null, drag = null, waits = false, frame = null;

// Draws the view anew, once however often it changed; what the pointer was told is no longer so.
function redraw() {
  tip.hidden = true;
  if (waits) return;
  waits = true;
  requestAnimationFrame(() => {
    waits = false;
    drawView();
  });
}

function drawView() {
  const width = box.clientWidth, height = box.clientHeight, dots = window.devicePixelRatio || 1;
  document.getElementById("tall").style.height = `${Math.max(lanesHeight + 8, height)}px`;
  canvas.style.width = `${width}px`;
  canvas.style.height = `${height}px`;
  if (canvas.width !== Math.round(width * dots) || canvas.height !== Math.round(height * dots)) {
    canvas.width = Math.round(width * dots);
    canvas.height = Math.round(height * dots);
  }
  const context = canvas.getContext("2d");
  context.setTransform(dots, 0, 0, dots, 0, 0);
  frame = frameOf(context, width, height, view, box.scrollTop);
  const shown = lanes.filter((lane) => lane.top + lane.height > frame.top && lane.top < frame.top + height);
  drawAll(frame, shown, selected);
  document.getElementById("axis").textContent = frame.axis.name;
}

// Shows a window of the axis, which is moved and cut so that it lies on the axis.
function show(low, high) {
  const axis = axes[view.axis], whole = axis.high - axis.low;
  const span = Math.min(Math.max(high - low, Math.min(LEAST_SPAN, whole)), whole);
  view.low = Math.min(Math.max(low, axis.low), axis.high - span);
  view.high = view.low + span;
  redraw();
}

function zoom(factor, centre) {
  const middle = centre === undefined ? middleOfZoom() : centre;
  show(middle - (middle - view.low) * factor, middle + (view.high - middle) * factor);
}

// The selected entry where it is in the window, and else the middle.
function middleOfZoom() {
  const value = selected === null ? NaN : axes[view.axis].at(selected);
  return value >= view.low && value <= view.high ? value : (view.low + view.high) / 2;
}

function move(share) {
  const step = (view.high - view.low) * share;
  show(view.low + step, view.high + step);
}

// Turns to the other axis, and shows the entries that were in the window.
function turnAxis() {
  const from = Math.max(axes[view.axis].from(view.low), scene.first - 1);
  const to = Math.min(axes[view.axis].upTo(view.high) + 1, scene.last + 1);
  view.axis = view.axis === "entries" ? "ticks" : "entries";
  show(axes[view.axis].at(from), axes[view.axis].at(to));
}

// Selects an entry, moves the window to it, and tells its line among those around it.
function select(number) {
  if (!hasEntry(number)) return;
  selected = number;
  const value = axes[view.axis].at(number), span = view.high - view.low;
  if (value < view.low || value > view.high - span / 20) show(value - span / 2, value + span / 2);
  const lines = [wordsOf(number), ""];
  for (let near = number - LINES_AROUND; near <= number + LINES_AROUND; near++) {
    if (hasEntry(near)) lines.push((near === number ? "> " : "  ") + lineOf(near));
  }
  told.textContent = lines.join("\n");
  told.className = "";
  document.getElementById("number").value = number;
  redraw();
}

function laneAt(y) {
  const height = y + box.scrollTop;
  return y < RULER ? undefined : lanes.find((lane) => height >= lane.top && height < lane.top + lane.height);
}

// The entry at a point: a mark or an entry's line that is drawn there, or the one that the axis has there.
function entryAt(lane, x) {
  const numbers = !lane ? [] : lane.kind === "thread" ? lane.row.marked : performed.get(lane.row.number);
  const near = numbers[lastUpTo(numbers, frame.axis.standing(frame.valueAt(x)))];
  if (near !== undefined && x - frame.px(near) >= 0 && x - frame.px(near) < GRASP) return near;
  return frame.axis.standing(frame.valueAt(x));
}

// The entries that stand in one column of pixels with a point or with the entry there, which comes first.
function entriesAt(lane, x) {
  const first = entryAt(lane, x);
  if (!hasEntry(first)) return [];
  const there = frame.px(first), numbers = [first];
  const from = Math.max(frame.axis.from(frame.valueAt(Math.min(x, there) - 1)), scene.first);
  const to = Math.min(frame.axis.upTo(frame.valueAt(Math.max(x, there) + 1)), scene.last);
  for (let number = from; number <= to; number++) {
    const far = Math.min(Math.abs(frame.px(number) - x), Math.abs(frame.px(number) - there));
    if (number !== first && far <= 0.5) numbers.push(number);
  }
  return numbers;
}

function linesAt(lane, x) {
  const numbers = entriesAt(lane, x), lines = numbers.slice(0, LINES_IN_TIP).map(lineOf);
  const more = numbers.length - lines.length;
  if (more <= 0) return lines;
  const helps = frame.px(numbers[0]) === frame.px(numbers[1]) ? "turn to the other axis" : "zoom in";
  return lines.concat([`and ${more} more here; ${helps} to tell them apart`]);
}

// What a lane shows at a point, in words.
function wordsAt(lane, x) {
  const standing = Math.max(frame.axis.standing(frame.valueAt(x)), scene.first - 1);
  const at = lastUpTo(lane.row.starts, standing), piece = lane.row.pieces[at], start = lane.row.starts[at];
  const since = start >= scene.first ? `, since entry ${start}` : "";
  if (lane.kind === "thread") return `${lane.name}: ${scene.places[piece][2]}${since}`;
  const load = lane.row.loads[lastUpTo(lane.row.loadStarts, standing)];
  return `${lane.name}: ${runnerWords(piece)}${since}; load ${load}`;
}

function showTip(event) {
  const edge = canvas.getBoundingClientRect(), x = event.clientX - edge.left, y = event.clientY - edge.top;
  const lane = laneAt(y);
  tip.hidden = drag !== null && drag.moved;
  if (x < GUTTER) tip.textContent = lane ? lane.row.final || "no final line" : "";
  else tip.textContent = (lane ? [wordsAt(lane, x)] : []).concat(linesAt(lane, x)).join("\n");
  if (tip.textContent === "") tip.hidden = true;
  const left = Math.min(event.clientX + 14, window.innerWidth - tip.offsetWidth - 8);
  const below = event.clientY + 16, above = event.clientY - tip.offsetHeight - 10;
  tip.style.left = `${Math.max(left, 4)}px`;
  tip.style.top = `${below + tip.offsetHeight > window.innerHeight ? Math.max(above, 2) : below}px`;
}

const deeds = {
  in: () => zoom(0.5),
  out: () => zoom(2),
  left: () => move(-0.25),
  right: () => move(0.25),
  all: () => show(axes[view.axis].low, axes[view.axis].high),
  turn: turnAxis,
  next: () => select(selected === null ? scene.first : Math.min(selected + 1, scene.last)),
  previous: () => select(selected === null ? scene.last : Math.max(selected - 1, scene.first)),
};
const keys = {
  "+": "in", "=": "in", "-": "out", ArrowLeft: "left", ArrowRight: "right", "0": "all", t: "turn", n: "next", p: "previous",
};

function onKey(event) {
  const deed = keys[event.key];
  if (deed === undefined || event.ctrlKey || event.metaKey || event.altKey) return;
  if (event.target.tagName === "INPUT") return;
  event.preventDefault();
  deeds[deed]();
}

function onWheel(event) {
  if (!event.ctrlKey && !event.shiftKey) return;
  event.preventDefault();
  const turned = event.deltaY || event.deltaX;
  const x = event.clientX - canvas.getBoundingClientRect().left;
  if (event.ctrlKey) zoom(turned > 0 ? 1.25 : 0.8, frame.valueAt(Math.max(x, GUTTER)));
  else move(turned > 0 ? 0.1 : -0.1);
}

function onMove(event) {
  if (drag !== null && event.buttons === 1) {
    drag.moved = drag.moved || Math.abs(event.clientX - drag.x) > 3;
    const far = (drag.x - event.clientX) / frame.scale;
    if (drag.moved) show(drag.low + far, drag.high + far);
  }
  showTip(event);
}

function onUp(event) {
  const edge = canvas.getBoundingClientRect(), x = event.clientX - edge.left;
  const lane = laneAt(event.clientY - edge.top);
  if (drag !== null && !drag.moved && x >= GUTTER) select(Math.max(entryAt(lane, x), scene.first));
  drag = null;
}

canvas.addEventListener("mousedown", (event) => {
  if (event.button === 0) drag = { x: event.clientX, low: view.low, high: view.high, moved: false };
});
canvas.addEventListener("mousemove", onMove);
canvas.addEventListener("mouseup", onUp);
canvas.addEventListener("mouseleave", () => {
  tip.hidden = true;
  drag = null;
});
canvas.addEventListener("dblclick", (event) => {
  zoom(0.5, frame.valueAt(event.clientX - canvas.getBoundingClientRect().left));
});
box.addEventListener("scroll", redraw);
box.addEventListener("wheel", onWheel, { passive: false });
document.addEventListener("keydown", onKey);
window.addEventListener("resize", redraw);
for (const button of document.querySelectorAll("button[data-does]")) {
  button.addEventListener("click", () => deeds[button.dataset.does]());
}
document.getElementById("number").addEventListener("change", (event) => select(Number(event.target.value)));
drawView();
