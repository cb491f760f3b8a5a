
// Drawing.

// ---- Views: the plate's point at the middle of the canvas and the pixels of a unit.

const canvas = element("canvas");
const context = canvas.getContext("2d", { alpha: false });
let ratio = 1;
/** `only` is the layer whose pairs alone are drawn; null if all are. `byPasses` tells whether grooves are
 *  drawn by their numbers of passes and not by kinds. */
let view = { x: 0, y: 0, scale: 1, width: 1, height: 1, only: null, byPasses: false };
let isFitted = true;

/** The room around the plate when it is fitted; above it are the buttons. */
function margins(width, height) {
  const side = Math.min(28 * ratio, width / 8, height / 8);
  return { side, top: Math.min(54 * ratio, height / 5) };
}

function fitScale(width, height) {
  const { side, top } = margins(width, height);
  const wide = bounds.right - bounds.left, high = bounds.bottom - bounds.top;
  if (!(wide > 0 || high > 0)) return 40 * ratio;
  const scale = Math.min((width - 2 * side) / wide, (height - top - side) / high);
  return Math.min(scale, 1e280);
}

function fit() {
  isFitted = true;
  const { width, height } = canvas;
  const { side, top } = margins(width, height), scale = fitScale(width, height);
  const x = (bounds.left + bounds.right) / 2;
  const y = (bounds.top + bounds.bottom) / 2 - (top - side) / 2 / scale;
  setView({ ...view, x, y, scale, width, height });
}

let viewSince = 0;
function setView(changed) {
  view = changed;
  viewSince = performance.now();
  ask();
}

const sameView = (a, b) =>
  a.x === b.x && a.y === b.y && a.scale === b.scale && a.width === b.width && a.height === b.height
  && a.only === b.only && a.byPasses === b.byPasses;

/** Zooms by a factor; the place at these pixels stays where it is. */
function zoom(factor, px, py) {
  const least = fitScale(view.width, view.height);
  const scale = Math.min(Math.max(view.scale * factor, least / 8), least * 1e9, 1e290);
  const dx = px - view.width / 2, dy = py - view.height / 2;
  isFitted = false;
  setView({
    ...view, scale,
    x: view.x + dx / view.scale - dx / scale, y: view.y + dy / view.scale - dy / scale,
  });
}

function pan(dx, dy) {
  isFitted = false;
  setView({ ...view, x: view.x - dx / view.scale, y: view.y - dy / view.scale });
}

const acrossOf = (v, x) => (x - v.x) * v.scale + v.width / 2;
const downOf = (v, y) => (y - v.y) * v.scale + v.height / 2;

/** The line from path point to path point as it lies in a view. `first` and `last` are the
 *  distances from its start between which it is near the canvas. */
const line = { x: 0, y: 0, ux: 0, uy: 0, length: 0, first: 0, last: 0 };
function lay(v, pair, reach) {
  const a = 2 * pair - 2;
  line.x = acrossOf(v, path[a]);
  line.y = downOf(v, path[a + 1]);
  const dx = acrossOf(v, path[a + 2]) - line.x, dy = downOf(v, path[a + 3]) - line.y;
  line.length = Math.hypot(dx, dy);
  line.ux = line.length > 0 ? dx / line.length : 1;
  line.uy = line.length > 0 ? dy / line.length : 0;
  line.first = 0;
  line.last = line.length;
  return clip(line.x, line.ux, v.width, reach) && clip(line.y, line.uy, v.height, reach);
}

/** A quick test for lines that are wholly beyond one side of the canvas. */
function awayFrom(v, reach) {
  const wide = (v.width / 2 + 2 * reach) / v.scale, high = (v.height / 2 + 2 * reach) / v.scale;
  const [left, right, top, bottom] = [v.x - wide, v.x + wide, v.y - high, v.y + high];
  return (a) =>
    (path[a] < left && path[a - 2] < left) || (path[a] > right && path[a - 2] > right) ||
    (path[a + 1] < top && path[a - 1] < top) || (path[a + 1] > bottom && path[a - 1] > bottom);
}

/** Narrows the line to where one of its coordinates is near the canvas; false if it is nowhere. */
function clip(at, along, size, reach) {
  const low = -reach - at, high = size + reach - at;
  if (Math.abs(along) * line.length < 1e-9) return low <= 0 && high >= 0;
  const [enter, leave] = along > 0 ? [low / along, high / along] : [high / along, low / along];
  if (enter > line.first) line.first = enter;
  if (leave < line.last) line.last = leave;
  return line.first <= line.last;
}

// ---- Pens. Many short pieces are stroked at once; few enough that long ones stay fast.

const BATCH = 48;

function pen(target, colour, width) {
  target.strokeStyle = colour;
  target.fillStyle = colour;
  target.lineWidth = width;
  target.lineCap = "butt";
  target.lineJoin = "bevel";
}

/** Pieces of the laid line of length `on`, one each `period`, to the right of it by `aside`. */
function pieces(target, on, period, aside, phase) {
  const x = line.x - line.uy * aside, y = line.y + line.ux * aside;
  const before = (line.first + phase) % period;
  let s = line.first - before;
  for (; s < line.last; s += period) {
    const from = Math.max(s, line.first), to = Math.min(s + on, line.last);
    if (to <= from) continue;
    target.moveTo(x + line.ux * from, y + line.uy * from);
    target.lineTo(x + line.ux * to, y + line.uy * to);
  }
}

function arrowHead(target, x, y, ux, uy, size) {
  const bx = x - ux * size, by = y - uy * size, half = size * 0.48;
  target.moveTo(x, y);
  target.lineTo(bx - uy * half, by + ux * half);
  target.lineTo(bx + uy * half, by - ux * half);
  target.closePath();
}

function dot(target, x, y, radius) {
  target.moveTo(x + radius, y);
  target.arc(x, y, radius, 0, 2 * Math.PI);
}

function lozenge(target, x, y, size) {
  target.moveTo(x, y - size);
  target.lineTo(x + size, y);
  target.lineTo(x, y + size);
  target.lineTo(x - size, y);
  target.closePath();
}

/** The list's cuts as lines; those that follow on one another are one line. */
function drawCuts(target, v, list, from, to) {
  target.beginPath();
  let joined = -1;
  for (let at = from; at < to; at++) {
    const pair = list[at];
    if (!lay(v, pair, 60)) continue;
    if (pair !== joined + 1 || line.first > 0) {
      target.moveTo(line.x + line.ux * line.first, line.y + line.uy * line.first);
    }
    // A cut of no length is still seen.
    const end = Math.max(line.last, 0.6);
    target.lineTo(line.x + line.ux * end, line.y + line.uy * end);
    joined = line.last < line.length ? -1 : pair;
  }
  target.stroke();
}

/** The cuts of a layer that has dashes. */
function drawDashedCuts(target, v, list, from, to, style) {
  const dashes = layerDashes(pairLayers[list[from]]);
  target.beginPath();
  for (let at = from; at < to; at++) {
    if (!lay(v, list[at], 60)) continue;
    for (const [place, length] of dashes.pieces) {
      const phase = runs[list[at]] * v.scale + (dashes.period - place) * style.dashes;
      pieces(target, length * style.dashes, dashes.period * style.dashes, 0, phase);
    }
  }
  target.stroke();
}

function drawBackSteps(target, v, list, from, to, style) {
  target.beginPath();
  for (let at = from; at < to; at++) {
    if (!lay(v, list[at], 60)) continue;
    pieces(target, style.dot, style.period, style.aside, runs[list[at]] * v.scale);
  }
  target.stroke();
}

function drawJumps(target, v, list, from, to, style) {
  for (let at = from; at < to; at++) {
    if (!lay(v, list[at], 60)) continue;
    target.beginPath();
    const head = Math.min(style.head, line.length * 0.7);
    const [x, y] = [line.x + line.ux * line.length, line.y + line.uy * line.length];
    if (line.last > line.length - head) line.last = Math.max(line.length - head, line.first);
    pieces(target, style.dash, style.dash * 1.5, 0, 0);
    target.stroke();
    target.beginPath();
    if (head > 2) arrowHead(target, x, y, line.ux, line.uy, head);
    if (isLone(list[at]) || line.length < 3) dot(target, x, y, style.lone);
    target.fill();
  }
}

const DRAW = [null, drawCuts, drawBackSteps, drawJumps];

/** The same by passes: a line for each groove, which covers the one that it had with fewer passes. */
function drawPasses(target, v, style, list, from, to) {
  let at = from;
  while (at < to) {
    const shade = passClass(passRanks[list[at]]);
    const most = Math.min(to, at + (style.isFine ? 8 * BATCH : BATCH));
    let end = at + 1;
    while (end < most && passClass(passRanks[list[end]]) === shade) end++;
    pen(target, PASS_COLOURS[shade], style.passes[shade]);
    drawCuts(target, v, list, at, end);
    at = end;
  }
}

/** Draws the list's items from one place to another, each over those before it. */
function drawItems(target, v, style, list, from, to) {
  if (v.byPasses) { drawPasses(target, v, style, list, from, to); return; }
  let at = from;
  while (at < to) {
    const kind = kindOf(list[at]), layer = pairLayers[list[at]];
    const most = Math.min(to, at + (style.isFine ? 8 * BATCH : BATCH));
    const isAlike = (pair) => kindOf(pair) === kind && (kind !== CUT || pairLayers[pair] === layer);
    let end = at + 1;
    while (end < most && isAlike(list[end])) end++;
    pen(target, colourOf(list[at]), style.widths[kind]);
    const draw = kind === CUT && layerDashes(layer) ? drawDashedCuts : DRAW[kind];
    draw(target, v, list, at, end, style);
    at = end;
  }
}

/** Sizes in pixels. Where lines are close together, `size` is less than 1 and all is smaller.
 *  Lines of one pixel are drawn many times faster than wider ones: where there are very many,
 *  the style is fine. */
function styleOf(isFine, size) {
  const fine = isFine || ratio < 2 ? 1 : 0.75 * ratio, k = size * ratio;
  const width = (most) => (isFine ? fine : Math.max(most * k, fine));
  return {
    isFine, widths: [0, width(1.7), width(2.4), width(1.8)], passes: PASS_WIDTHS.map(width), pale: fine,
    touch: Math.max(6 * k, 4 * ratio),
    dot: 2.5 * k, period: 6.5 * ratio, aside: Math.max(4 * k, 2.2 * ratio),
    dashes: Math.max(k, 0.7 * ratio), dash: 11 * Math.max(k, 0.7 * ratio), head: 11 * Math.max(k, 0.6 * ratio), lone: 2.6 * k,
  };
}

/** About how many microseconds an item takes to draw without a graphics card. */
function costOf(pair, length, style, byPasses) {
  const kind = byPasses ? CUT : kindOf(pair), dashes = !byPasses && kind === CUT && layerDashes(pairLayers[pair]);
  if (dashes) return (style.isFine ? 0.6 : 1.6) * (1 + (2 * length) / (dashes.period * style.dashes));
  if (kind === CUT) return style.isFine ? 0.5 + 0.012 * length : 3 + 0.05 * length;
  if (kind === BACK_STEP) return (style.isFine ? 0.4 : 1.1) * (1 + length / style.period);
  return (style.isFine ? 0.5 : 3) * (8 + length / style.dash);
}

// ---- Pictures: the plate in one view, with what is engraved up to some item. Copies at some
// places are kept, so that any place is soon reached from the one before it.

const LEAST_SIZE = 0.55, SLICE = 5000, MOST_BYTES = 120e6, MOST_COPIES = 28;
const spare = [];

function sheet(v) {
  const found = spare.findIndex((c) => c.width === v.width && c.height === v.height);
  if (found >= 0) return spare.splice(found, 1)[0];
  spare.length = 0;
  const made = document.createElement("canvas");
  made.width = v.width;
  made.height = v.height;
  return made;
}
const brush = (c) => c.getContext("2d", { alpha: false });

class Picture {
  constructor(v) {
    this.view = v;
    const items = itemsOf(v);
    const seen = new Uint32Array(items.length);
    const lengthsSeen = new Float32Array(items.length);
    const longest = Math.hypot(v.width, v.height), reach = 16 * ratio;
    const isAway = awayFrom(v, reach);
    let count = 0;
    const others = [], signs = [];
    for (const pair of items) {
      if (isAway(2 * pair) || !lay(v, pair, reach)) continue;
      if (v.only !== null && pairLayers[pair] !== v.only) { others.push(pair); continue; }
      if (kindOf(pair) === TOUCH) { signs.push(pair); continue; }
      lengthsSeen[count] = Math.min(line.last - line.first, longest);
      seen[count++] = pair;
    }
    this.list = seen.slice(0, count);
    this.touches = Uint32Array.from(signs);
    this.numbered = v.byPasses ? numberedOf(this.list, lengthsSeen) : [];
    // What is to come, and all of the layers that are not asked for, is pale.
    const apart = [...others, ...signs];
    this.palePairs = new Uint32Array(apart.length + count);
    this.palePairs.set(apart);
    this.palePairs.set(this.list, apart.length);
    const size = this.sizeFor(lengthsSeen);
    this.setStyle(styleOf(false, size), lengthsSeen);
    if (count > 15000 || this.cost > 60000) this.setStyle(styleOf(true, LEAST_SIZE), lengthsSeen);
    const room = Math.floor(MOST_BYTES / (4 * v.width * v.height)) - 3;
    this.gap = Math.max(this.cost / Math.max(Math.min(room, MOST_COPIES), 3), 2000);
    this.begin();
  }

  /** How large lines and dots are drawn: it follows from how far the cuts are apart. */
  sizeFor(lengthsSeen) {
    const { width, height } = this.view;
    let drawn = 1;
    for (let at = 0; at < this.list.length; at++) if (kindOf(this.list[at]) === CUT) drawn += lengthsSeen[at];
    const apart = (0.6 * width * height) / drawn;
    return Math.min(Math.max(apart / (14 * ratio), LEAST_SIZE), 1);
  }

  setStyle(style, lengthsSeen) {
    const { list } = this;
    this.style = style;
    // Before item i, costs[i] microseconds are spent.
    this.costs = new Float64Array(list.length + 1);
    for (let at = 0; at < list.length; at++) {
      const cost = costOf(list[at], lengthsSeen[at], this.style, this.view.byPasses);
      this.costs[at + 1] = this.costs[at] + cost;
    }
    this.cost = this.costs[list.length];
  }

  begin() {
    const base = sheet(this.view);
    this.paleAt = 0;
    this.copies = [{ at: 0, sheet: base }];
    this.scout = null;
    this.scoutAt = 0;
    this.live = sheet(this.view);
    this.liveAt = -1;
    const target = brush(base);
    target.fillStyle = SHEET;
    target.fillRect(0, 0, base.width, base.height);
    drawPlate(target, this.view);
  }

  release() {
    for (const copy of this.copies) spare.push(copy.sheet);
    spare.push(this.live);
    if (this.scout) spare.push(this.scout);
    spare.length = Math.min(spare.length, MOST_COPIES + 6);
  }

  /** The item up to which a budget lasts from an item on, at least one further. */
  reach(from, budget, most) {
    const last = countUpTo(this.costs, this.costs[from] + budget) - 1;
    return Math.min(Math.max(last, from + 1), most);
  }

  /** How many items are drawn when a pair is the current one. */
  place(pair) { return countUpTo(this.list, pair); }

  get isPale() { return this.paleAt >= this.palePairs.length; }
  get isWhole() { return this.isPale && this.scoutAt >= this.list.length; }

  /** Draws on the contours to come, then on towards the last item, keeping copies. */
  advance(budget) {
    if (!this.isPale) return this.advancePale(budget);
    if (this.isWhole) return 0;
    if (!this.scout) {
      this.scout = sheet(this.view);
      brush(this.scout).drawImage(this.copies[0].sheet, 0, 0);
    }
    const next = this.costs[this.copies.at(-1).at] + this.gap;
    const stop = Math.max(countUpTo(this.costs, next) - 1, this.scoutAt + 1);
    const to = this.reach(this.scoutAt, budget, Math.min(stop, this.list.length));
    drawItems(brush(this.scout), this.view, this.style, this.list, this.scoutAt, to);
    const spent = this.costs[to] - this.costs[this.scoutAt];
    this.scoutAt = to;
    if (to < stop && to < this.list.length) return spent;
    const copy = sheet(this.view);
    brush(copy).drawImage(this.scout, 0, 0);
    this.copies.push({ at: to, sheet: copy });
    return spent + 500;
  }

  advancePale(budget) {
    const to = Math.min(this.paleAt + Math.ceil(budget), this.palePairs.length);
    const target = brush(this.copies[0].sheet);
    const cuts = this.palePairs.subarray(this.paleAt, to).filter((pair) => kindOf(pair) === CUT);
    pen(target, PALE, this.style.pale);
    for (let at = 0; at < cuts.length; at += 8 * BATCH) {
      drawCuts(target, this.view, cuts, at, Math.min(at + 8 * BATCH, cuts.length));
    }
    target.beginPath();
    for (let at = this.paleAt; at < to; at++) {
      const pair = this.palePairs[at];
      if (!isEntry(pair) || !isLone(pair)) continue;
      dot(target, acrossOf(this.view, path[2 * pair]), downOf(this.view, path[2 * pair + 1]), this.style.lone);
    }
    target.fill();
    this.paleAt = to;
    return cuts.length;
  }

  /** Brings the live sheet towards a pair; true once it is there. */
  bring(pair, budget) {
    if (!this.isPale) return false;
    const goal = this.place(pair);
    let best = this.copies[0];
    for (const copy of this.copies) if (copy.at <= goal) best = copy;
    const isBehind = this.liveAt < best.at || this.liveAt > goal;
    if (isBehind) {
      brush(this.live).drawImage(best.sheet, 0, 0);
      this.liveAt = best.at;
    }
    if (this.liveAt < goal) {
      const to = this.reach(this.liveAt, budget, goal);
      drawItems(brush(this.live), this.view, this.style, this.list, this.liveAt, to);
      this.liveAt = to;
    }
    return this.liveAt === goal;
  }
}

/** The plate's corners and, where it decides on the start, its centre. They are no lines that could
 *  be taken for grooves to come. */
function drawPlate(target, v) {
  if (isFile) return;
  const [left, top] = [acrossOf(v, 0), downOf(v, 0)];
  const [right, bottom] = [acrossOf(v, data.width), downOf(v, data.height)];
  const arm = 6 * ratio;
  pen(target, FRAME, Math.max(1, ratio));
  target.beginPath();
  const arms = (x, y, across, down) => {
    if (!(Math.abs(x) < 1e5 && Math.abs(y) < 1e5)) return;
    for (const dx of across) { target.moveTo(x, y); target.lineTo(x + dx * arm, y); }
    for (const dy of down) { target.moveTo(x, y); target.lineTo(x, y + dy * arm); }
  };
  if (data.width && data.height) {
    arms(left, top, [1], [1]);
    arms(right, top, [-1], [1]);
    arms(left, bottom, [1], [-1]);
    arms(right, bottom, [-1], [-1]);
  }
  if (!home) arms((left + right) / 2, (top + bottom) / 2, [-1, 1], [-1, 1]);
  target.stroke();
}

// ---- The parked point. It is drawn in each frame over what is engraved, which may begin on it.

/** The parked point with its coordinates; where it is out of sight, an arrow at the side points to it. */
function drawHome() {
  const x = acrossOf(view, home[0]), y = downOf(view, home[1]);
  const { side, top } = margins(view.width, view.height), reach = side / 2;
  const isWithin = (at, size) => at >= reach && at <= size - reach;
  const isSeen = isWithin(x, view.width) && isWithin(y, view.height);
  const px = isSeen ? x : Math.min(Math.max(x, reach), view.width - reach);
  const py = isSeen ? y : Math.min(Math.max(y, top), view.height - reach);
  if (isSeen) drawParked(x, y); else drawPointer(px, py, x - px, y - py);
  drawLabel(`parked at ${pointText(home)}`, px, py);
}

/** A square, which is wider than the start's ring, around a dot. */
function drawParked(x, y) {
  const half = 12 * ratio;
  for (const [colour, width] of [[SHEET, 5.5], [FRAME, 2.4]]) {
    pen(context, colour, width * ratio);
    context.strokeRect(x - half, y - half, 2 * half, 2 * half);
  }
  context.beginPath();
  dot(context, x, y, 2.5 * ratio);
  context.fill();
}

/** An arrow's head that points from a place along a direction. */
function drawPointer(x, y, dx, dy) {
  const length = Math.hypot(dx, dy), [ux, uy] = [dx / length, dy / length];
  pen(context, SHEET, 5 * ratio);
  context.beginPath();
  arrowHead(context, x + ux * 10 * ratio, y + uy * 10 * ratio, ux, uy, 18 * ratio);
  context.stroke();
  context.fillStyle = FRAME;
  context.fill();
}

/** A text beside a sign, on the side that has room for it. */
function drawLabel(text, x, y) {
  context.font = `${14 * ratio}px system-ui, sans-serif`;
  context.textBaseline = "middle";
  const wide = context.measureText(text).width, gap = 20 * ratio;
  const left = x + gap + wide <= view.width ? x + gap : Math.max(x - gap - wide, 0);
  pen(context, SHEET, 4 * ratio);
  context.strokeText(text, left, y);
  context.fillStyle = EDGE;
  context.fillText(text, left, y);
}

// ---- Touches. They are drawn in each frame over what is engraved: the grooves that meet there, of
// which most come later, would cover the signs.

const MANY_TOUCHES = 600;

/** The picture's touches up to the current pair. Very many are bare outlines of one pixel, which are
 *  drawn many times faster. */
function drawTouches({ touches, style }) {
  const count = countUpTo(touches, current), isMany = count > MANY_TOUCHES;
  for (let at = 0; at < count; at += BATCH) {
    pen(context, COLOURS[TOUCH], isMany ? 1 : 1.8 * ratio);
    context.fillStyle = SHEET;
    context.beginPath();
    touches.subarray(at, Math.min(at + BATCH, count)).forEach((pair) => {
      lozenge(context, acrossOf(view, path[2 * pair]), downOf(view, path[2 * pair + 1]), style.touch);
    });
    if (!isMany) context.fill();
    context.stroke();
  }
}

// ---- Numbers of passes on the grooves, where there is room. They are drawn in each frame over what is
// engraved; where the path goes on, they grow.

const MOST_NUMBERED = 3000, MOST_NUMBERS = 150;

/** The grooves among these items that are long enough for a number, those with most passes first. */
function numberedOf(list, lengthsSeen) {
  const isLong = (pair, at) => firstPasses[pair] === pair && lengthsSeen[at] >= 30 * ratio;
  const found = list.filter(isLong).sort((a, b) => passTotals[b] - passTotals[a] || a - b);
  return found.subarray(0, MOST_NUMBERED);
}

/** What has most passes by now comes first, and what would lie on another number is left out. */
function drawNumbers({ numbered }) {
  const due = [...numbered].filter((first) => first <= current)
    .map((first) => ({ first, passes: countUpTo(pairsOver(first), current) }))
    .sort((a, b) => b.passes - a.passes || a.first - b.first);
  const [wide, high] = [34 * ratio, 18 * ratio], taken = new Set();
  let count = 0;
  context.font = `600 ${13 * ratio}px system-ui, sans-serif`;
  context.textBaseline = "middle";
  context.textAlign = "center";
  pen(context, SHEET, 4 * ratio);
  for (const { first, passes } of due) {
    if (count === MOST_NUMBERS) break;
    if (!lay(view, first, 0)) continue;
    const along = (line.first + line.last) / 2, x = line.x + line.ux * along, y = line.y + line.uy * along;
    const [column, row] = [Math.floor(x / wide), Math.floor(y / high)];
    if (taken.has(`${column} ${row}`)) continue;
    count++;
    for (const across of [-1, 0, 1]) for (const down of [-1, 0, 1]) taken.add(`${column + across} ${row + down}`);
    context.strokeText(passes, x, y);
    context.fillStyle = EDGE;
    context.fillText(passes, x, y);
  }
  context.textAlign = "start";
}

// ---- The current pair.

let current = Math.min(1, pairs);
/** The pair that the panel shows; 0 if it is to be written anew. */
let shownPair = 0;

function drawStart() {
  const x = acrossOf(view, path[0]), y = downOf(view, path[1]);
  if (!(Math.abs(x) < 1e5 && Math.abs(y) < 1e5)) return;
  for (const [colour, width] of [[SHEET, 5.5], [COLOURS[START], 2.4]]) {
    pen(context, colour, width * ratio);
    context.beginPath();
    dot(context, x, y, 8 * ratio);
    context.stroke();
  }
  if (!isLone(0)) return;
  context.beginPath();
  dot(context, x, y, 3 * ratio);
  context.fill();
}

/** A wide stroke below the pair, or a ring around it if it is too short for that. */
function drawHalo(isShort) {
  const [x, y] = [line.x + line.ux * line.first, line.y + line.uy * line.first];
  const [ex, ey] = [line.x + line.ux * line.last, line.y + line.uy * line.last];
  for (const [colour, width] of isShort ? [[EDGE, 7], [HALO, 4]] : [[EDGE, 17], [HALO, 13]]) {
    pen(context, colour, width * ratio);
    context.lineCap = "round";
    context.beginPath();
    if (isShort) dot(context, (x + ex) / 2, (y + ey) / 2, 24 * ratio);
    else context.moveTo(x, y);
    if (!isShort) context.lineTo(ex, ey);
    context.stroke();
  }
  if (!isShort) return;
  context.fillStyle = `${HALO}70`;
  context.fill();
}

function drawCurrentTouch() {
  const { x, y } = line;
  pen(context, COLOURS[TOUCH], 3 * ratio);
  context.fillStyle = SHEET;
  context.beginPath();
  lozenge(context, x, y, 10 * ratio);
  context.fill();
  context.stroke();
}

function drawCurrent() {
  if (!current || !lay(view, current, 60 * ratio)) return;
  const kind = kindOf(current), { x, y, ux, uy, length, last } = line;
  const isShort = length < 36 * ratio;
  drawHalo(isShort);
  if (kind === TOUCH) { drawCurrentTouch(); return; }
  const head = Math.min(14 * ratio, Math.max(length * 0.55, 4 * ratio));
  if (last === length) line.last = Math.max(length - head, line.first);
  pen(context, colourOf(current), 3 * ratio);
  context.beginPath();
  if (kind === CUT) pieces(context, Infinity, Infinity, 0, 0);
  if (kind === BACK_STEP) pieces(context, 3 * ratio, 7 * ratio, 0, 4 * ratio);
  if (kind === JUMP) pieces(context, 11 * ratio, 16.5 * ratio, 0, 0);
  context.stroke();
  if (line.first === 0) {
    pen(context, SHEET, 2 * ratio);
    context.strokeStyle = EDGE;
    context.beginPath();
    dot(context, x, y, Math.min(4.5 * ratio, Math.max(length / 4, 1.5 * ratio)));
    context.fill();
    context.stroke();
  }
  if (last < length || !(length > 0)) return;
  pen(context, colourOf(current), ratio);
  context.beginPath();
  arrowHead(context, x + ux * length, y + uy * length, ux, uy, head);
  context.fill();
}

/** Pans so that the current pair, or at least its end, is well inside the canvas. */
function keepInSight() {
  const [ax, ay, bx, by] = path.subarray(2 * current - 2, 2 * current + 2);
  const xs = [acrossOf(view, ax), acrossOf(view, bx)], ys = [downOf(view, ay), downOf(view, by)];
  const margin = Math.min(60 * ratio, view.width / 6, view.height / 6);
  const isInside = (values, size) => values.every((v) => v >= margin && v <= size - margin);
  if (isFitted || (isInside(xs, view.width) && isInside(ys, view.height))) return;
  const hasRoom = (values, size) => Math.abs(values[0] - values[1]) <= size - 2 * margin;
  if (hasRoom(xs, view.width) && hasRoom(ys, view.height)) {
    setView({ ...view, x: ax + (bx - ax) / 2, y: ay + (by - ay) / 2 });
  } else if (!isInside([xs[1]], view.width) || !isInside([ys[1]], view.height)) {
    setView({ ...view, x: bx, y: by });
  }
}
