"use strict";
// The scene of the page, and where a coordinate stands on either axis. A coordinate is an entry's number; one
// before the first entry is what stood before it, and one behind the last entry is the end.
const scene = JSON.parse(document.getElementById("data").textContent);
const MARGIN_SHARE = 50;

// The last place in a rising list whose number is at most `value`, or -1.
function lastUpTo(list, value) {
  let low = 0, high = list.length;
  while (low < high) {
    const middle = (low + high) >> 1;
    if (list[middle] <= value) low = middle + 1;
    else high = middle;
  }
  return low - 1;
}

// The greatest time up to each entry, and the least time from each entry on: both rise.
function risingTimes(times) {
  const reached = Float64Array.from(times), ahead = Float64Array.from(times);
  for (let at = 1; at < times.length; at++) reached[at] = Math.max(reached[at - 1], times[at]);
  for (let at = times.length - 2; at >= 0; at--) ahead[at] = Math.min(ahead[at + 1], times[at]);
  return { reached, ahead };
}

// The axis of entry numbers.
function entryAxis() {
  const low = scene.first - 1, high = scene.last + 1;
  const within = (value) => Math.min(Math.max(Math.floor(value), low), high);
  return {
    name: "entries", low, high, parts: [{ from: low, to: high, time: low }],
    at: (coordinate) => coordinate,
    from: within, upTo: within, standing: within,
    words: (value) => hasEntry(value) ? String(value) : "",
  };
}

// Where a time stands, less the time `scene.base`: nearer to the first one by what was folded before it.
function placeOf(time) {
  let place = time;
  for (const [begin, end, width] of scene.folds) if (end <= time) place -= end - begin - width;
  return place;
}

// The times that are drawn as long as they are, between the folds, each from one place to another.
function plainTimes(least, most) {
  const begins = [least, ...scene.folds.map(([, end]) => end)], ends = [...scene.folds.map(([begin]) => begin), most];
  return begins.map((begin, at) => ({ from: placeOf(begin), to: placeOf(begin) + ends[at] - begin, time: begin }));
}

// The axis of time in hz ticks, less the time `scene.base`, with a margin at either end.
function tickAxis() {
  const times = scene.end === null ? scene.times : scene.times.concat([scene.end]);
  const { reached, ahead } = risingTimes(scene.times.map(placeOf));
  const least = times.reduce((a, b) => Math.min(a, b)), most = times.reduce((a, b) => Math.max(a, b));
  const margin = Math.max(1, Math.floor((placeOf(most) - least) / MARGIN_SHARE));
  const low = least - margin, high = placeOf(most) + margin;
  const at = (coordinate) => placeOf(scene.times[coordinate - scene.first]);
  return {
    name: "hz ticks", low, high, parts: plainTimes(least - margin, most + margin),
    at: (coordinate) => hasEntry(coordinate) ? at(coordinate) : coordinate < scene.first ? low : high,
    // from what stands at a value: the entry before the first one that is as late
    from: (value) => scene.first + lastUpTo(reached, value - 1e-9),
    upTo: (value) => scene.first + lastUpTo(ahead, value),
    standing: (value) => scene.first + lastUpTo(reached, value),
    words: (time) => String(BigInt(scene.base) + BigInt(Math.round(time))),
  };
}

const axes = { entries: entryAxis(), ticks: tickAxis() };

// The entries of each worker and the marked ones of them, and the marked ones of each thread.
function entriesByWorker() {
  const lists = new Map(scene.cpus.map((cpu) => [cpu.number, []]));
  scene.workers.forEach((worker, at) => lists.get(worker).push(scene.first + at));
  return lists;
}

const performed = entriesByWorker();
const orderOfThread = new Map(scene.threads.map((thread, order) => [thread.number, order]));
const greatestLoad = scene.cpus.reduce((most, cpu) => cpu.loads.reduce((a, b) => Math.max(a, b), most), 1);

function hasEntry(number) {
  return number >= scene.first && number <= scene.last;
}

function lineOf(number) {
  return scene.lines[number - scene.first];
}

function markOf(number) {
  const mark = scene.marks[number - scene.first];
  return mark < 0 ? null : scene.looks.marks[mark];
}

function eventOf(number) {
  return lineOf(number).split(" ", 4)[3];
}

// Whether an entry is a switch that no mark asked for, which changed nothing.
function isUnmarked(number) {
  return lineOf(number).endsWith("-> unmarked");
}

// A pattern of the script's saying.py with its fields filled in, those within others first.
function filled(pattern, event, reply) {
  const field = /\{([er])(\d)(?: (thread)|=([^|{}]*)\|([^|{}]*)\|([^|{}]*))?\}/g;
  const spelled = (_whole, side, at, thread, value, so, otherwise) => {
    const word = (side === "e" ? event : reply)[Number(at)];
    if (thread) return word === "-" ? "no thread" : `thread ${word}`;
    return value === undefined ? word : word === value ? so : otherwise;
  };
  for (let before = null; before !== pattern;) {
    before = pattern;
    pattern = pattern.replace(field, spelled);
  }
  return pattern;
}

// An entry in words.
function wordsOf(number) {
  const [head, tail] = lineOf(number).split(" -> "), [, worker, now, ...event] = head.split(" "), reply = tail.split(" ");
  const [events, replies] = scene.says;
  const said = [filled(events[event[0]], event, reply), filled(replies[reply[0]], event, reply)].join(": ");
  return `entry ${number}, worker ${worker.slice(1)} at ${now}: ${said}`;
}

// What a CPU runs, in words; below 0 stand no thread and what isn't told.
function runnerWords(thread) {
  return thread >= 0 ? `thread ${thread} runs` : thread === -1 ? "no thread runs" : "not told";
}
