// Drawing of pieces, marks and bands into a frame: a canvas, and the window of the axis that it shows.
const GUTTER = 124, RULER = 24, BAR = 18, STRIP = 16, BAND = 18;
const CPU_HEIGHT = STRIP + BAR + BAND + 10, THREAD_HEIGHT = BAR + 4;
const FONT = "11px sans-serif", BOLD = "bold 11px sans-serif", SMALL = "10px sans-serif";
// below this width in pixels pieces are drawn together, by their shares of a column
const NARROW = 1.5;
const patternCache = new Map();

// A frame of a context, which shows the view; `top` is subtracted from the heights of the lanes.
function frameOf(context, width, height, view, top) {
  const axis = axes[view.axis];
  const scale = (width - GUTTER - 12) / (view.high - view.low);
  const px = (coordinate) => GUTTER + (axis.at(coordinate) - view.low) * scale;
  const valueAt = (x) => view.low + (x - GUTTER) / scale;
  const from = Math.max(axis.from(view.low), scene.first - 1), to = Math.min(axis.upTo(view.high), scene.last);
  return { context, width, height, view, top, axis, scale, px, valueAt, from, to, right: width - 12 };
}

function patternOf(state) {
  if (patternCache.has(state)) return patternCache.get(state);
  const [fill, lines] = scene.looks.states[state];
  const tile = document.createElement("canvas");
  tile.width = tile.height = 6;
  const context = tile.getContext("2d");
  context.fillStyle = fill;
  context.fillRect(0, 0, 6, 6);
  context.strokeStyle = scene.looks.edge;
  context.lineWidth = 0.7;
  for (const [a, b, c, d] of scene.looks.lines[lines] || []) {
    context.beginPath();
    context.moveTo(a, b);
    context.lineTo(c, d);
    context.stroke();
  }
  const made = lines ? context.createPattern(tile, "repeat") : fill;
  patternCache.set(state, made);
  return made;
}

function tintOf(thread) {
  return scene.looks.tints[orderOfThread.get(thread) % scene.looks.tints.length];
}

// One piece that is wide enough to be seen, with its words where they have room behind an offset.
function drawPiece(frame, left, right, y, look, offset) {
  const { context } = frame;
  if (look.fill) {
    context.fillStyle = look.fill;
    context.fillRect(left, y, right - left, BAR);
  }
  context.strokeStyle = look.fill ? scene.looks.edge : scene.looks.faint;
  context.lineWidth = 0.7;
  if (right - left > 3) context.strokeRect(left, y, right - left, BAR);
  context.font = FONT;
  const room = look.words && right - left > 14 ? context.measureText(look.words).width : Infinity;
  if (room + offset + 8 > right - left) return;
  context.fillStyle = "#ffffffbf";
  context.fillRect(left + 3 + offset, y + 2, room + 3, BAR - 4);
  context.fillStyle = "#000";
  context.fillText(look.words, left + 4.5 + offset, y + BAR / 2 + 4);
}

// Pieces narrower than a column of pixels: each column is filled from the bottom by their shares, in the order
// of `plain`, the colours from the one that matters most.
class Columns {
  constructor(frame, y, plain) {
    Object.assign(this, { frame, y, plain, column: -1, shares: new Map() });
  }

  add(left, width, colour) {
    const column = Math.floor(left);
    if (column !== this.column) this.flush();
    this.column = column;
    this.shares.set(colour, (this.shares.get(colour) || 0) + width);
  }

  flush() {
    let whole = 0, bottom = this.y + BAR;
    for (const share of this.shares.values()) whole += share;
    for (const colour of this.plain) {
      const share = this.shares.get(colour);
      if (!share) continue;
      const height = Math.min(Math.max(BAR * share / whole, 2), bottom - this.y);
      this.frame.context.fillStyle = colour;
      this.frame.context.fillRect(this.column, bottom - height, 1, height);
      bottom -= height;
    }
    this.shares.clear();
    this.column = -1;
  }
}

// How far behind the left end of a piece the words stand, so that no mark lies on them.
function offsetOf(frame, marked, start, left) {
  const at = lastUpTo(marked, start);
  const behind = [marked[at], marked[at + 1]].map((number) => number === undefined ? 0 : frame.px(number) + 15 - left);
  return Math.max(0, ...behind.filter((offset) => offset < 19));
}

// The pieces of a lane that the frame shows. `lookOf` tells of a piece its fill, plain colour and words, and
// `marked` are the entries whose marks are drawn over them.
function drawPieces(frame, starts, pieces, y, plain, lookOf, marked) {
  const columns = new Columns(frame, y, plain);
  for (let at = Math.max(0, lastUpTo(starts, frame.from)); at < starts.length && starts[at] <= frame.to; at++) {
    const end = at + 1 < starts.length ? starts[at + 1] : scene.last + 1;
    const left = Math.max(frame.px(starts[at]), GUTTER), right = Math.min(frame.px(end), frame.right);
    if (right <= left) continue;
    const look = lookOf(pieces[at]);
    if (look === null) continue;
    if (right - left < NARROW) {
      columns.add(left, right - left, look.plain);
    } else {
      columns.flush();
      drawPiece(frame, left, right, y, look, offsetOf(frame, marked, starts[at], left));
    }
  }
  columns.flush();
}

// The marks among some entries: a letter each, and a line where letters would lie on one another.
function drawMarks(frame, numbers, y) {
  const { context } = frame;
  let free = -Infinity, lined = -Infinity;
  for (let at = Math.max(0, lastUpTo(numbers, frame.from)); at < numbers.length && numbers[at] <= frame.to; at++) {
    const mark = markOf(numbers[at]), x = frame.px(numbers[at]);
    if (mark === null || x < GUTTER || x > frame.right) continue;
    if (x >= free) {
      drawMark(context, x + 8, y, mark);
      free = x + 15;
    } else if (Math.floor(x) !== lined) {
      lined = Math.floor(x);
      context.fillStyle = "#000";
      context.fillRect(lined, y - BAR / 2, 1, 3);
    }
  }
}

function drawMark(context, x, y, [, letter, fill, ink]) {
  context.beginPath();
  context.arc(x, y, 7, 0, 2 * Math.PI);
  context.fillStyle = fill;
  context.fill();
  context.lineWidth = 1;
  context.strokeStyle = fill === "#FFFFFF" ? ink : "#000";
  context.stroke();
  context.fillStyle = ink;
  context.font = "bold 10px sans-serif";
  context.textAlign = "center";
  context.fillText(letter, x, y + 3.5);
  context.textAlign = "left";
}

// The load of a CPU; in a column with several loads the least is dark and the greatest light.
function drawLoad(frame, cpu, y) {
  const { context } = frame;
  const heightOf = (load) => (BAND - 3) * load / greatestLoad;
  const band = (left, right, load, alpha) => {
    context.globalAlpha = alpha;
    context.fillRect(left, y + BAND - heightOf(load), right - left, heightOf(load));
    context.globalAlpha = 1;
  };
  let column = null;
  const flush = () => {
    context.fillStyle = scene.looks.load;
    if (column) band(column.x, column.x + 1, column.most, 0.15);
    if (column) band(column.x, column.x + 1, column.least, 0.25);
    column = null;
  };
  const starts = cpu.loadStarts;
  for (let at = Math.max(0, lastUpTo(starts, frame.from)); at < starts.length && starts[at] <= frame.to; at++) {
    const load = cpu.loads[at], end = at + 1 < starts.length ? starts[at + 1] : scene.last + 1;
    const left = Math.max(frame.px(starts[at]), GUTTER), right = Math.min(frame.px(end), frame.right);
    if (right <= left) continue;
    if (right - left >= NARROW) {
      flush();
      drawLoadPiece(frame, left, right, y + BAND, heightOf(load), load);
      continue;
    }
    if (!column || column.x !== Math.floor(left)) flush();
    column = column || { x: Math.floor(left), least: load, most: load };
    column.least = Math.min(column.least, load);
    column.most = Math.max(column.most, load);
  }
  flush();
}

function drawLoadPiece({ context }, left, right, bottom, height, load) {
  context.fillStyle = scene.looks.load;
  context.globalAlpha = 0.25;
  context.fillRect(left, bottom - height, right - left, height);
  context.globalAlpha = 1;
  context.fillRect(left, bottom - height - 0.5, right - left, 1);
  if (right - left < 20) return;
  context.fillStyle = "#000";
  context.font = SMALL;
  context.fillText(String(load), left + 4, bottom - 3);
}
