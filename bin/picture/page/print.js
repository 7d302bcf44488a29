// For print all lanes are drawn, in canvases that each fit a page, with the window that the screen shows.
const PAPER_WIDTH = 1040, PAPER_HEIGHT = 640, PAPER_DOTS = 2;

// The lanes, parted so that those of each part fit a page.
function sheets() {
  const parts = [];
  for (const lane of lanes) {
    const last = parts[parts.length - 1];
    if (last && lane.top + lane.height - last[0].top <= PAPER_HEIGHT) last.push(lane);
    else parts.push([lane]);
  }
  return parts;
}

function printSheet(shown) {
  const sheet = document.createElement("canvas");
  const top = shown[0].top - RULER - 4, last = shown[shown.length - 1], height = last.top + last.height - top + 4;
  sheet.width = PAPER_WIDTH * PAPER_DOTS;
  sheet.height = height * PAPER_DOTS;
  sheet.style.width = `${PAPER_WIDTH}px`;
  sheet.style.height = `${height}px`;
  const context = sheet.getContext("2d");
  context.setTransform(PAPER_DOTS, 0, 0, PAPER_DOTS, 0, 0);
  drawAll(frameOf(context, PAPER_WIDTH, height, view, top), shown, selected);
  return sheet;
}

window.addEventListener("beforeprint", () => document.getElementById("print").replaceChildren(...sheets().map(printSheet)));
window.addEventListener("afterprint", () => document.getElementById("print").replaceChildren());
