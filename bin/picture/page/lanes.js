// The lanes in their order, and the whole picture of a window.
const lanes = layOut();
const lanesHeight = lanes.length ? lanes[lanes.length - 1].top + lanes[lanes.length - 1].height : 0;
const topOfLane = new Map(lanes.map((lane) => [lane.name, lane.top]));
const statesInOrder = ["real", "batch", "idle", "queued", "hand", "asleep", "unborn", "gone"];
const plainStates = scene.looks.tints.concat(statesInOrder.map((state) => scene.looks.states[state][0]), [""]);

// Each lane with its top and its height, below the ruler.
function layOut() {
  const laid = [];
  let top = RULER + 16;
  for (const cpu of scene.cpus) {
    laid.push({ kind: "cpu", row: cpu, name: `CPU ${cpu.number}`, top, height: CPU_HEIGHT });
    top += CPU_HEIGHT;
  }
  for (const thread of scene.threads) {
    laid.push({ kind: "thread", row: thread, name: `thread ${thread.number}`, top, height: THREAD_HEIGHT });
    top += THREAD_HEIGHT;
  }
  return laid;
}

function placeLook(thread, place) {
  const [state, words] = scene.places[place];
  if (state === "") return null;
  if (state === "running") return { fill: tintOf(thread), plain: tintOf(thread), words };
  return { fill: patternOf(state), plain: scene.looks.states[state][0], words };
}

function runnerLook(thread) {
  if (thread === -2) return null;
  if (thread === -1) return { fill: "", plain: "", words: "" };
  return { fill: tintOf(thread), plain: tintOf(thread), words: `thread ${thread}` };
}

// The bars of the groups that have a CPU, left of its lane, the outermost leftmost.
function drawGroups(frame, cpu, y) {
  for (const depth of cpu.groups) {
    frame.context.fillStyle = scene.looks.groups[depth - 1];
    frame.context.fillRect(2 * (depth - 1), y, 1.5, CPU_HEIGHT - 10);
  }
}

function drawCpu(frame, cpu, y) {
  drawGroups(frame, cpu, y);
  drawStrip(frame, performed.get(cpu.number), y);
  drawPieces(frame, cpu.starts, cpu.pieces, y + STRIP, scene.looks.tints, runnerLook, []);
  drawLoad(frame, cpu, y + STRIP + BAR);
}

function drawThread(frame, thread, y) {
  const lookOf = (place) => placeLook(thread.number, place);
  drawPieces(frame, thread.starts, thread.pieces, y, plainStates, lookOf, thread.marked);
  drawMarks(frame, thread.marked, y + BAR / 2);
}

// The entries of a worker: a line each, with its word where it has room, and the marks.
function drawStrip(frame, numbers, y) {
  const { context } = frame;
  let lined = -Infinity;
  context.font = SMALL;
  for (let at = Math.max(0, lastUpTo(numbers, frame.from)); at < numbers.length && numbers[at] <= frame.to; at++) {
    const x = frame.px(numbers[at]);
    if (x < GUTTER || x > frame.right || Math.floor(x) === lined) continue;
    lined = Math.floor(x);
    context.fillStyle = isUnmarked(numbers[at]) ? scene.looks.faint : scene.looks.line;
    context.fillRect(lined, y + 2, 1, STRIP - 2);
    if (isUnmarked(numbers[at])) context.fillStyle = scene.looks.faintWords;
    const next = at + 1 < numbers.length ? frame.px(numbers[at + 1]) : frame.right, room = Math.min(next, frame.right) - x;
    const offset = markOf(numbers[at]) === null ? 3 : 17;
    if (room > 20 && context.measureText(eventOf(numbers[at])).width + offset + 3 <= room) {
      context.fillText(eventOf(numbers[at]), x + offset, y + 11);
    }
  }
  drawMarks(frame, numbers, y + 8);
}

// The least of 1, 2, 5, 10, 20 and so on that is at least `value`.
function roundStep(value) {
  let step = 1;
  for (let at = 0; step < value; at++) step *= at % 3 === 1 ? 2.5 : 2;
  return step;
}

function drawRuler(frame) {
  const { context, axis, scale, right } = frame;
  context.fillStyle = "#fff";
  context.fillRect(0, 0, frame.width, RULER);
  context.fillStyle = scene.looks.line;
  context.font = FONT;
  context.fillText(axis.name, 8, 16);
  const step = roundStep(70 / scale);
  for (const part of axis.parts) drawRulerPart(frame, part, step);
  context.fillRect(GUTTER, RULER - 1, right - GUTTER, 1);
}

// The numbers along a part of the axis, each step one, as far as the window shows it.
function drawRulerPart({ context, view, axis, scale, right }, part, step) {
  const shift = view.axis === "ticks" ? Number(BigInt(scene.base) % BigInt(step)) : 0;
  const timeOf = (value) => part.time + value - part.from;
  const low = Math.max(view.low, part.from), high = Math.min(view.high, part.to);
  for (let time = Math.ceil((timeOf(low) + shift) / step) * step - shift; time <= timeOf(high); time += step) {
    const x = GUTTER + (part.from + time - part.time - view.low) * scale;
    context.fillRect(Math.round(x), 6, 1, RULER - 6);
    const words = axis.words(time);
    if (x + context.measureText(words).width + 4 < right + 12) context.fillText(words, x + 3, 16);
  }
}

function drawName(context, lane, y) {
  context.fillStyle = "#000";
  context.font = BOLD;
  if (lane.kind === "thread") {
    context.fillText(lane.name, 8, y + BAR / 2 + 4);
    const width = context.measureText(lane.name).width;
    context.font = SMALL;
    context.fillStyle = scene.looks.line;
    context.fillText(lane.row.label, 14 + width, y + BAR / 2 + 4);
    return;
  }
  context.fillText(lane.name, 8, y + STRIP + BAR / 2 + 4);
  context.font = SMALL;
  context.fillStyle = scene.looks.line;
  context.fillText(`worker ${lane.row.number}`, 8, y + 11);
  context.fillText(`load, 0 to ${greatestLoad}`, 8, y + STRIP + BAR + 13);
}

// A line from top to bottom at an entry.
function drawAt(frame, number, dashes) {
  const { context } = frame;
  const x = Math.round(frame.px(number)) + 0.5;
  if (x < GUTTER || x > frame.right) return;
  context.strokeStyle = "#000";
  context.lineWidth = 1;
  context.setLineDash(dashes);
  context.beginPath();
  context.moveTo(x, 2);
  context.lineTo(x, frame.height);
  context.stroke();
  context.setLineDash([]);
}

// The lanes of a window, from one on that begins at the top of the frame.
function drawAll(frame, shown, selected) {
  const { context, width, height } = frame;
  context.fillStyle = "#fff";
  context.fillRect(0, 0, width, height);
  for (const lane of shown) {
    const y = lane.top - frame.top;
    if (lane.kind === "cpu") drawCpu(frame, lane.row, y);
    else drawThread(frame, lane.row, y);
    drawName(context, lane, y);
  }
  drawRuler(frame);
  drawFolds(frame);
  drawLinks(frame);
  if (selected !== null) drawAt(frame, selected, [4, 3]);
}
