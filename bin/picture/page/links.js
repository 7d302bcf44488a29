// The arrows from one entry to another, and the folds of the axis, drawn over the lanes.
const MOST_LINKS = 300, LEAST_COLUMN_WITH_LINKS = 5;

// The links that the frame shows at least one end of.
function linksIn(frame) {
  const isShown = (number) => number >= frame.from && number <= frame.to;
  return scene.links.filter(([, begin, end]) => isShown(begin) || isShown(end));
}

// Where a link begins and ends, and how high its arc goes.
function arcOf(frame, [kind, begin, end, thread]) {
  const workers = [begin, end].map((number) => scene.workers[number - scene.first]);
  const stripOf = (worker) => topOfLane.get(`CPU ${worker}`) - frame.top;
  if (kind === "wake") {
    const y = stripOf(workers[0]) + STRIP, toY = topOfLane.get(`thread ${thread}`) - frame.top;
    return { x: frame.px(begin) + 8, y, toX: frame.px(end) + 2, toY, high: (y + toY) / 2 };
  }
  const y = stripOf(workers[0]) + 1, toY = stripOf(workers[1]) + 1;
  return { x: frame.px(begin) + 8, y, toX: frame.px(end) + 8, toY, high: Math.min(y, toY) - 12 };
}

function drawLink(frame, link) {
  const { context } = frame, { x, y, toX, toY, high } = arcOf(frame, link), [colour, dashes] = scene.looks.links[link[0]];
  context.strokeStyle = context.fillStyle = colour;
  context.lineWidth = 1.3;
  context.setLineDash(dashes === "none" ? [] : dashes.split(" ").map(Number));
  context.beginPath();
  context.moveTo(x, y);
  context.bezierCurveTo(x, high, toX, high, toX, toY);
  context.stroke();
  context.setLineDash([]);
  const down = toY >= high ? 1 : -1;
  context.beginPath();
  context.moveTo(toX, toY);
  context.lineTo(toX - 3.5, toY - 7 * down);
  context.lineTo(toX + 3.5, toY - 7 * down);
  context.fill();
}

// The arrows, where there is room to tell them apart.
function drawLinks(frame) {
  const links = linksIn(frame), { context } = frame;
  const width = (frame.right - GUTTER) / Math.max(frame.to - frame.from + 1, 1);
  if (links.length > MOST_LINKS || width < LEAST_COLUMN_WITH_LINKS) return;
  context.save();
  context.beginPath();
  context.rect(GUTTER, RULER, frame.width - GUTTER, frame.height - RULER);
  context.clip();
  for (const link of links) drawLink(frame, link);
  context.restore();
}

// A gap in the lanes at each time that was folded, with what it is long.
function drawFolds(frame) {
  if (frame.view.axis !== "ticks") return;
  const { context, height } = frame, bottom = Math.min(height, lanesHeight - frame.top);
  for (const [begin, end, width] of scene.folds) {
    const middle = GUTTER + (placeOf(end) - width / 2 - frame.view.low) * frame.scale;
    if (middle < GUTTER || middle > frame.right) continue;
    context.fillStyle = "#fff";
    context.fillRect(middle - 3, 0, 6, bottom);
    context.strokeStyle = scene.looks.edge;
    context.lineWidth = 1;
    context.setLineDash([2, 2]);
    for (const x of [middle - 3, middle + 3]) {
      context.beginPath();
      context.moveTo(x, 0);
      context.lineTo(x, bottom);
      context.stroke();
    }
    context.setLineDash([]);
    context.font = SMALL;
    const words = `${end - begin} hz ticks`, half = context.measureText(words).width / 2 + 3;
    context.fillRect(middle - half, RULER + 1, 2 * half, 12);
    context.fillStyle = scene.looks.line;
    context.textAlign = "center";
    context.fillText(words, middle, RULER + 10);
    context.textAlign = "left";
  }
}
