
// Frames, controls and the panel.

// ---- Frames.

let shown = null, next = null, isAsked = false, isSettled = false, frameTime = 0;

function ask() {
  isSettled = false;
  if (isAsked) return;
  isAsked = true;
  requestAnimationFrame(frame);
}

function retire(picture) { if (picture) picture.release(); }

/** Makes a picture of a changed view, piece by piece, and shows it when it is up to date. */
function turn() {
  if (shown && sameView(shown.view, view)) {
    retire(next);
    next = null;
    return;
  }
  // A picture that is soon made is made in each frame of a pan or zoom; others wait for its end.
  const isQuick = itemsOf(view).length < 2e5 && (!shown || shown.cost < SLICE) && (!next || next.cost < SLICE);
  if (!next || !sameView(next.view, view)) {
    if (shown && !isQuick && performance.now() - viewSince < 90) return;
    retire(next);
    next = new Picture(view);
  }
  let budget = 1.4 * SLICE;
  while (budget > 0 && !next.isPale) budget -= Math.max(next.advance(budget), 200);
  const goal = next.place(current);
  while (budget > 0 && next.isPale && next.scoutAt < goal && !next.isWhole) {
    budget -= Math.max(next.advance(budget), 50);
  }
  if (!next.isPale || (next.scoutAt < goal && budget <= 0)) return;
  retire(shown);
  shown = next;
  next = null;
}

function compose() {
  context.setTransform(1, 0, 0, 1, 0, 0);
  if (!shown || !sameView(shown.view, view)) {
    context.fillStyle = SHEET;
    context.fillRect(0, 0, canvas.width, canvas.height);
  }
  if (shown) {
    const old = shown.view, k = view.scale / old.scale;
    const isSame = sameView(old, view);
    const dx = isSame ? 0 : acrossOf(view, old.x) - (k * old.width) / 2;
    const dy = isSame ? 0 : downOf(view, old.y) - (k * old.height) / 2;
    context.setTransform(k, 0, 0, k, dx, dy);
    context.drawImage(shown.live, 0, 0);
    context.setTransform(1, 0, 0, 1, 0, 0);
    drawTouches(shown);
  }
  if (home) drawHome();
  if (points) drawStart();
  drawCurrent();
  if (shown) drawNumbers(shown);
}

function frame(now) {
  const begun = performance.now();
  isAsked = false;
  play(now);
  if (shownPair !== current && element("follow").checked && pairs) keepInSight();
  turn();
  const isThere = shown ? shown.bring(current, 1.2 * SLICE) : false;
  if (isThere && !next && !shown.isWhole) shown.advance(0.8 * SLICE);
  compose();
  showPair();
  const isDone = isThere && !next && sameView(shown.view, view) && shown.isWhole && !playing;
  if (!isDone) ask();
  isSettled = !isAsked;
  frameTime = performance.now() - begun;
}

// ---- Stepping.

const clamp = (number) => Math.min(Math.max(number, 1), pairs);

function go(number) {
  if (!pairs || !Number.isFinite(number)) return;
  current = clamp(Math.round(number));
  ask();
}

/** To the next of these pairs, or to the one before. */
function goAlong(numbers, direction) {
  const before = countUpTo(numbers, direction > 0 ? current : current - 1);
  const number = direction > 0 ? numbers[before] : numbers[before - 1];
  if (number) go(number);
}

let playing = false, playedUpTo = 0;

function setPlaying(isOn) {
  playing = isOn && pairs > 0;
  if (playing && current === pairs) current = 1;
  playedUpTo = 0;
  element("play-icon").setAttribute("d", playing ? "M3 2h4v12H3zM9 2h4v12H9z" : "M3 2l11 6-11 6z");
  element("play").setAttribute("aria-label", playing ? "Pause" : "Play");
  ask();
}

function play(now) {
  if (!playing) return;
  if (!playedUpTo) playedUpTo = now;
  const due = Math.floor(((now - playedUpTo) * Number(element("speed").value)) / 1000);
  if (due < 1) return;
  playedUpTo += (due * 1000) / Number(element("speed").value);
  current = clamp(current + due);
  if (current === pairs) setPlaying(false);
}

// ---- The panel. Numbers are shown in full.

/** As the tool writes numbers: with an exponent below 1e-5 and from 1e16 on. */
function plain(number) {
  if (Object.is(number, -0)) return "-0";
  const isLong = number !== 0 && (Math.abs(number) < 1e-5 || Math.abs(number) >= 1e16);
  return isLong ? number.toExponential().replace("e+", "e") : String(number);
}
const grouped = (number) => number.toLocaleString("en-US");
/** A length in 1,024ths as the exact decimal of its units: a 1,024th is 0.0009765625. */
function unitsText(length) {
  const fraction = String((length % 1024) * 9765625).padStart(10, "0");
  return `${Math.floor(length / 1024)}.${fraction}`.replace(/\.?0+$/, "");
}
/** How much of the whole a length is, to the nearest hundredth of a percent. */
function percentText(length, whole) {
  if (!whole) return "";
  const hundredths = (20000n * BigInt(length) + BigInt(whole)) / (2n * BigInt(whole));
  return `${hundredths / 100n}.${String(hundredths % 100n).padStart(2, "0")} %`;
}
const pointText = ([x, y]) => `(${plain(x)}, ${plain(y)})`;
const vertexText = ([contour, vertex]) => isFile
  ? `block ${grouped(Math.floor(vertex / BLOCK_POINTS))}, place ${vertex % BLOCK_POINTS}`
  : `contour ${grouped(contour)}, vertex ${grouped(vertex)}`;

function whatLines(pair) {
  const segment = `contour ${grouped(pair.contour ?? 0)}, segment ${grouped(pair.segment ?? 0)}`;
  if (pair.kind === "cut") {
    const [, from] = pair.fromVertex, [, to] = pair.toVertex;
    return [`${segment}, ${pair.sense}`, `vertex ${grouped(from)} to vertex ${grouped(to)}`];
  }
  if (pair.kind === "jump" || pair.kind === "touch") {
    return [`lands on ${vertexText(pair.toVertex)}`, `leaves ${vertexText(pair.fromVertex)}`];
  }
  const groove = pair.grooveKind === "cut"
    ? `the cut of ${segment}, ${pair.sense}`
    : `the ${pair.grooveKind} to ${vertexText(locate(vertices[pair.groove]))}`;
  if (pair.reversed === pair.groove) return [`reverses pair ${grouped(pair.reversed)}`, groove];
  return [
    `reverses pair ${grouped(pair.reversed)}`,
    `a back-step too; what it goes over is pair ${grouped(pair.groove)}, ${groove}`,
  ];
}

const WHAT = { cut: "Segment", "back-step": "Groove", jump: "Jump", touch: "Touch" };
const facts = {};

function makeFacts() {
  const rows = [["from", "From"], ["to", "To"], ["what", ""], ["length", "Length"], ["passes", "Passes"], ["mark", "Mark"]];
  if (layers) rows.splice(3, 0, ["layer", "Layer"]);
  for (const [key, label] of rows) {
    if (isFile && (key === "what" || key === "mark")) continue;
    const term = document.createElement("dt"), text = document.createElement("dd");
    term.textContent = label;
    text.dataset.fact = key;
    const strong = document.createElement(key === "what" ? "span" : "b"), small = document.createElement("small");
    text.append(strong, small);
    element("pair-facts").append(term, text);
    facts[key] = { term, strong, small };
  }
  const link = document.createElement("button");
  link.type = "button";
  link.id = "reversed";
  link.addEventListener("click", () => go(told(current).reversed));
  facts.link = link;
}

function setFact(key, first, second) {
  facts[key].strong.textContent = first;
  facts[key].small.textContent = second;
}

function passesTexts(passes) {
  if (!passes) return ["none", "the points are equal"];
  const { now, all, first, last } = passes;
  return [`${grouped(now)} of ${grouped(all)}`, `over this groove, by pair ${grouped(first)} first, ${grouped(last)} last`];
}

/** What the pair is by its mark. */
function showWhat(pair) {
  const [first, second] = whatLines(pair);
  facts.what.term.textContent = WHAT[pair.kind];
  setFact("what", pair.kind === "back-step" ? "" : first, second);
  if (pair.kind === "back-step") {
    facts.link.textContent = first;
    facts.what.strong.append(facts.link);
  }
  setFact("mark", pair.mark.join(" "), "kind, reference");
  return `, ${pair.kind}, ${first}`;
}

function showPair() {
  if (shownPair === current || !pairs) return;
  shownPair = current;
  const pair = told(current);
  element("pair-number").textContent = `Pair ${grouped(current)} of ${grouped(pairs)}`;
  element("pair-kind").textContent = isFile ? "" : pair.kind;
  element("pair-kind").className = pair.kind;
  element("pair-points").textContent = `path points ${grouped(current - 1)} to ${grouped(current)}`;
  setFact("from", pointText(pair.from), vertexText(pair.fromVertex));
  setFact("to", pointText(pair.to), vertexText(pair.toVertex));
  const what = isFile ? "" : showWhat(pair);
  if (layers) setFact("layer", String(pair.layer), "");
  setFact("length", plain(pair.length), `counted as ${grouped(pair.counted)}/1,024`);
  setFact("passes", ...passesTexts(pair.passes));
  showControls(pair);
  keepHeight();
  later(() => {
    element("spoken").textContent = `Pair ${grouped(pair.number)}${what}, from `
      + `${pointText(pair.from)} to ${pointText(pair.to)}, length ${plain(pair.length)}`
      + (pair.passes ? `, pass ${pair.passes.now} of ${pair.passes.all}` : "")
      + (layers ? `, layer ${pair.layer}` : "");
    keepAddress();
  });
}

/** The panel does not shrink, so that what is below it stays in its place. */
let panelHeight = 0;
function keepHeight() {
  const height = element("pair").offsetHeight;
  if (height <= panelHeight) return;
  panelHeight = height;
  element("pair").style.minHeight = `${height}px`;
}

function showControls(pair) {
  const slider = element("slider"), number = element("number");
  slider.value = current;
  const kind = isFile ? "" : `, ${pair.kind}`;
  slider.setAttribute("aria-valuetext", `pair ${grouped(current)} of ${grouped(pairs)}${kind}`);
  if (document.activeElement !== number) {
    number.value = current;
    number.classList.remove("refused");
  }
  for (const id of ["first", "back"]) element(id).disabled = current === 1;
  for (const id of ["on", "last"]) element(id).disabled = current === pairs;
  element("jump-back").disabled = !(jumps[0] < current);
  element("jump-on").disabled = !(jumps[jumps.length - 1] > current);
  selectEntry();
}

/** Runs what may wait, once the pair has been the current one for a moment. */
let waiting = 0;
function later(task) {
  clearTimeout(waiting);
  waiting = setTimeout(task, 250);
}

function keepAddress() {
  const hash = `#pair=${current}`;
  if (location.hash === hash) return;
  try { history.replaceState(null, "", hash); } catch { /* Some browsers do not allow it for files. */ }
}

function readAddress() {
  const found = /^#pair=(\d+)$/.exec(location.hash);
  if (found) go(Number(found[1]));
}

// ---- The list of jumps and touches. A jump may be so short that its length is 0.

const byLength = Uint32Array.from([...jumps, ...touches]).sort(
  (a, b) => lengths[b - 1] - lengths[a - 1] || kindOf(a) - kindOf(b) || a - b);
const rows = [];
const rowOf = new Map();
let selected = null;

function makeEntries() {
  const list = element("jump-list");
  byLength.forEach((pair, place) => {
    const row = document.createElement("li");
    row.id = `jump-${pair}`;
    row.dataset.pair = pair;
    row.setAttribute("role", "option");
    row.setAttribute("aria-selected", "false");
    const [from] = locate(vertices[pair - 1]), [to] = locate(vertices[pair]);
    const last = kindOf(pair) === TOUCH ? "touch" : plain(lengths[pair - 1]);
    const texts = [grouped(pair), `${grouped(from)} \u2192 ${grouped(to)}`, last];
    for (const text of texts) row.append(Object.assign(document.createElement("span"), { textContent: text }));
    row.lastChild.title = last;
    row.classList.add(KINDS[kindOf(pair)]);
    rows.push(row);
    rowOf.set(pair, place);
  });
  list.append(...rows);
  list.addEventListener("click", (event) => {
    const row = event.target.closest("li");
    if (row) go(Number(row.dataset.pair));
  });
  element("jumps-note").textContent = rows.length ? "" : "(none)";
  if (rows.length > 40) element("jumps-printed").textContent = `(40 of ${grouped(rows.length)})`;
  const widest = (place, least) =>
    rows.reduce((most, row) => Math.max(most, row.children[place].textContent.length), least);
  const widths = [widest(0, 4), widest(1, 8), widest(2, 6)];
  element("jumps").style.setProperty("--pair-width", `${widths[0]}ch`);
  element("jumps").style.setProperty("--contours-width", `${widths[1]}ch`);
  // A number is never cut: where the three do not fit, the length has a line of its own.
  element("jumps").classList.toggle("two-lines", widths[0] + widths[1] + widths[2] > 33);
}

function selectEntry() {
  const place = rowOf.get(current), list = element("jump-list");
  if (selected) selected.setAttribute("aria-selected", "false");
  selected = place === undefined ? null : rows[place];
  if (!selected) { list.removeAttribute("aria-activedescendant"); return; }
  selected.setAttribute("aria-selected", "true");
  list.setAttribute("aria-activedescendant", selected.id);
  const height = selected.offsetHeight, top = place * height;
  if (top < list.scrollTop || top + height > list.scrollTop + list.clientHeight) {
    list.scrollTop = top - (list.clientHeight - height) / 2;
  }
}

/** Up and Down in the list go through it, whatever the pairs' order. */
function stepInList(key) {
  if (!rows.length) return false;
  const place = selected ? rowOf.get(Number(selected.dataset.pair)) : -1;
  const to = { ArrowDown: place + 1, ArrowUp: Math.max(place - 1, 0), Home: 0, End: rows.length - 1 }[key];
  if (to === undefined) return false;
  go(byLength[Math.min(to, rows.length - 1)]);
  return true;
}

// ---- Layers: a sample of each with its counts, and which of them are drawn.

/** A layer's dashes as an attribute has them: lengths of what is drawn and of what is not, in turn. */
function dashArray({ pieces, period }) {
  const ends = pieces.flatMap(([place, length]) => [place, place + length]).concat(period);
  return ends.slice(1).map((end, at) => end - ends[at]).join(" ");
}

function layerRow({ layer, cuts, contours }) {
  const row = element("layer-row").content.firstElementChild.cloneNode(true);
  const sample = row.querySelector("path"), dashes = layerDashes(layer);
  sample.setAttribute("stroke", layerColour(layer));
  if (dashes) sample.setAttribute("stroke-dasharray", dashArray(dashes));
  row.dataset.layer = layer;
  const [, name, ...totals] = row.children;
  name.textContent = `Layer ${layer}`;
  totals[0].textContent = grouped(cuts);
  totals[1].textContent = grouped(contours);
  return row;
}

function makeLayers() {
  if (!layerCounts.length) return;
  element("layers").hidden = false;
  element("layer-rows").append(...layerCounts.map(layerRow));
  for (const { layer } of layerCounts) element("layer").append(new Option(`layer ${layer} alone`, layer));
  element("layer").addEventListener("change", showLayer);
}

/** Draws the pairs of the chosen layer alone, or all; what is of other layers is pale. */
function showLayer() {
  const choice = element("layer").value, only = choice === "" ? null : Number(choice);
  for (const row of element("layer-rows").children) {
    row.classList.toggle("other", only !== null && Number(row.dataset.layer) !== only);
  }
  for (const row of rows) {
    row.classList.toggle("other", only !== null && pairLayers[Number(row.dataset.pair)] !== only);
  }
  setView({ ...view, only });
}

function nextLayer() {
  const choice = element("layer");
  if (!layerCounts.length) return;
  choice.selectedIndex = (choice.selectedIndex + 1) % choice.options.length;
  showLayer();
}

// ---- Lengths, in which the touches are among the jumps, and passes.

function makeLengths() {
  const sums = { cuts: data.cut_length, "back-steps": data.back_step_length, jumps: data.jump_length };
  const whole = sums.cuts + sums["back-steps"] + sums.jumps;
  for (const [kind, sum] of Object.entries({ ...sums, whole })) {
    const [units, parts, share] = [...element(`length-${kind}`).children].slice(1);
    units.textContent = unitsText(sum);
    parts.textContent = grouped(sum);
    share.textContent = percentText(sum, whole);
  }
}

function passRow({ at, from, to, grooves }) {
  const row = element("pass-row").content.firstElementChild.cloneNode(true);
  const sample = row.querySelector("path");
  sample.setAttribute("stroke", PASS_COLOURS[at]);
  sample.setAttribute("stroke-width", PASS_WIDTHS[at]);
  const [, name, total] = row.children;
  const range = to === null ? `${from} or more` : from === to ? `${from}` : `${from} to ${to}`;
  name.textContent = `${range} ${to === 1 ? "pass" : "passes"}`;
  total.textContent = `${grouped(grooves)} ${grooves === 1 ? "groove" : "grooves"}`;
  return row;
}

/** A control that goes to a pair. */
function pairLink(pair) {
  const link = Object.assign(document.createElement("button"), { type: "button", textContent: `pair ${grouped(pair)}` });
  link.addEventListener("click", () => go(pair));
  return link;
}

function makePasses() {
  const { most, first, last, grooves_with_most: count } = data.passes;
  const told = element("most-passes");
  if (!most) { told.textContent = "There is no groove."; element("by-passes").disabled = true; return; }
  const others = count > 1 ? `; ${grouped(count - 1)} more ${count > 2 ? "have" : "has"} as many` : "";
  told.append(`Most over one groove: ${grouped(most)}, first by `, pairLink(first), ", last by ", pairLink(last), `${others}.`);
  element("pass-rows").append(...passCounts.map(passRow));
  element("by-passes").addEventListener("change", showPasses);
}

/** Draws grooves by their passes, with a sample of each class, or by kinds. */
function showPasses() {
  const byPasses = element("by-passes").checked;
  element("pass-rows").parentElement.hidden = !byPasses;
  setView({ ...view, byPasses });
}

function turnPasses() {
  const choice = element("by-passes");
  if (choice.disabled) return;
  choice.checked = !choice.checked;
  showPasses();
}

// ---- Keys.

const currentAnchor = () => {
  const x = acrossOf(view, path[2 * current]), y = downOf(view, path[2 * current + 1]);
  const isInside = x >= 0 && y >= 0 && x <= view.width && y <= view.height;
  return isInside ? [x, y] : [view.width / 2, view.height / 2];
};
const zoomAtCurrent = (factor) => zoom(factor, ...currentAnchor());

const KEYS = {
  ArrowRight: (event) => go(current + (event.shiftKey ? 100 : 1)),
  ArrowLeft: (event) => go(current - (event.shiftKey ? 100 : 1)),
  n: () => go(current + 1), p: () => go(current - 1),
  PageDown: () => go(current + 100), PageUp: () => go(current - 100),
  ArrowDown: () => goAlong(jumps, 1), ArrowUp: () => goAlong(jumps, -1),
  j: () => goAlong(jumps, 1), J: () => goAlong(jumps, -1),
  t: () => goAlong(touches, 1), T: () => goAlong(touches, -1),
  Home: () => go(1), End: () => go(pairs),
  g: () => { element("number").focus(); element("number").select(); },
  " ": () => setPlaying(!playing),
  f: fit, 0: fit, l: nextLayer, c: turnPasses,
  "+": () => zoomAtCurrent(1.5), "=": () => zoomAtCurrent(1.5), "-": () => zoomAtCurrent(1 / 1.5),
  "?": () => element("help").showModal(),
};

function onKey(event) {
  const target = event.target;
  if (event.ctrlKey || event.altKey || event.metaKey || element("help").open) return;
  if (target.id === "number" || target.tagName === "SELECT") return;
  const isPressable = target.tagName === "BUTTON" || target.type === "checkbox";
  if (event.key === " " && isPressable) return;
  if (target.id === "jump-list" && stepInList(event.key)) { event.preventDefault(); return; }
  if (!Object.hasOwn(KEYS, event.key)) return;
  event.preventDefault();
  KEYS[event.key](event);
}

function onNumber() {
  const field = element("number"), text = field.value.replace(/[,\s]/g, "");
  const number = Number(text);
  const isGood = /^\d+$/.test(text) && number >= 1 && number <= pairs;
  field.classList.toggle("refused", !isGood);
  field.setCustomValidity(isGood ? "" : `A pair's number is from 1 to ${grouped(pairs)}.`);
  if (!isGood) { field.reportValidity(); return; }
  go(number);
  field.blur();
}

function listenToNumber() {
  const field = element("number");
  const giveUp = () => { field.value = current; field.classList.remove("refused"); field.setCustomValidity(""); };
  field.addEventListener("keydown", (event) => {
    if (event.key === "Enter") onNumber();
    if (event.key === "Escape") { giveUp(); field.blur(); }
  });
  field.addEventListener("input", () => field.setCustomValidity(""));
  field.addEventListener("blur", giveUp);
}

function listenToButtons() {
  const actions = {
    first: () => go(1), back: () => go(current - 1), on: () => go(current + 1), last: () => go(pairs),
    "jump-back": () => goAlong(jumps, -1), "jump-on": () => goAlong(jumps, 1), play: () => setPlaying(!playing),
    "zoom-in": () => zoomAtCurrent(1.5), "zoom-out": () => zoomAtCurrent(1 / 1.5), fit,
    "help-open": () => element("help").showModal(),
  };
  for (const [id, action] of Object.entries(actions)) element(id).addEventListener("click", action);
  element("slider").addEventListener("input", (event) => go(Number(event.target.value)));
  element("follow").addEventListener("change", () => { shownPair = 0; ask(); });
}

// ---- The pointer.

const pointers = new Map();
let moved = 0;

function positionOf(event) {
  const box = canvas.getBoundingClientRect();
  return [(event.clientX - box.left) * ratio, (event.clientY - box.top) * ratio];
}

function onPointerMove(event) {
  const before = pointers.get(event.pointerId);
  if (!before) return;
  const now = positionOf(event);
  moved += Math.hypot(now[0] - before[0], now[1] - before[1]);
  if (pointers.size === 1) {
    if (moved > 4 * ratio) { pan(now[0] - before[0], now[1] - before[1]); canvas.classList.add("dragged"); }
  } else {
    const [other] = [...pointers].filter(([id]) => id !== event.pointerId).map(([, at]) => at);
    const apart = (a, b) => Math.max(Math.hypot(a[0] - b[0], a[1] - b[1]), 1);
    zoom(apart(now, other) / apart(before, other), other[0], other[1]);
  }
  pointers.set(event.pointerId, now);
}

function onPointerUp(event) {
  const at = pointers.get(event.pointerId);
  pointers.delete(event.pointerId);
  canvas.classList.remove("dragged");
  if (at && event.type === "pointerup" && moved <= 4 * ratio && !pointers.size) pick(...at);
}

/** The touch whose sign is at these pixels, of several the last; undefined if there is none. */
function touchAt(px, py) {
  const isHit = (pair) => pair <= current && Math.hypot(
    px - acrossOf(view, path[2 * pair]), py - downOf(view, path[2 * pair + 1])) <= shown.style.touch;
  return shown ? shown.touches.filter(isHit).at(-1) : undefined;
}

/** Goes to the touch whose sign is at these pixels, or else to the pair that engraves the groove
 *  there. Jumps and touches to come are not in sight. */
function pick(px, py) {
  let best = touchAt(px, py) ?? 0, least = best ? 0 : 10 * ratio;
  for (const pair of shown ? shown.list : []) {
    const kind = kindOf(pair);
    if (kind === BACK_STEP || (kind === JUMP && pair > current) || !lay(view, pair, 16)) continue;
    const along = (px - line.x) * line.ux + (py - line.y) * line.uy;
    const s = Math.min(Math.max(along, line.first), line.last);
    const apart = Math.hypot(px - line.x - line.ux * s, py - line.y - line.uy * s);
    if (apart < least) { least = apart; best = pair; }
  }
  if (best) go(best);
}

function listenToPointer() {
  canvas.addEventListener("pointerdown", (event) => {
    if (event.button !== 0) return;
    if (!pointers.size) moved = 0;
    pointers.set(event.pointerId, positionOf(event));
    canvas.setPointerCapture(event.pointerId);
  });
  canvas.addEventListener("pointermove", onPointerMove);
  canvas.addEventListener("pointerup", onPointerUp);
  canvas.addEventListener("pointercancel", onPointerUp);
  canvas.addEventListener("wheel", (event) => {
    event.preventDefault();
    const pixels = event.deltaY * [1, 16, 400][event.deltaMode];
    zoom(Math.exp(-Math.min(Math.max(pixels, -400), 400) * 0.002), ...positionOf(event));
  }, { passive: false });
}

// ---- Beginning.

let isPrinting = false;

function resize() {
  if (isPrinting) return;
  const box = element("plate").getBoundingClientRect();
  ratio = window.devicePixelRatio || 1;
  const width = Math.max(Math.round(box.width * ratio), 1), height = Math.max(Math.round(box.height * ratio), 1);
  if (width === canvas.width && height === canvas.height && shown) return;
  canvas.width = width;
  canvas.height = height;
  panelHeight = 0;
  element("pair").style.minHeight = "";
  shownPair = 0;
  if (isFitted) fit(); else setView({ ...view, width, height });
}

function describe() {
  const held = data.contours.filter((length) => length > 0).length;
  const empty = data.contours.length - held;
  const counted = (number, word) => `${grouped(number)} ${word}${number === 1 ? "" : "s"}`;
  const start = home ? `home ${pointText(home)}` : data.start;
  const terms = `${data.width} by ${data.height}, start ${start}, `
    + `${counted(held, "contour")}${empty ? ` and ${grouped(empty)} empty` : ""}`;
  const file = () => `plate file, ${counted(data.blocks, "block")}, without marks`;
  element("terms").textContent = `${isFile ? file() : terms}, ${counted(points, "path point")}`;
  element("total-cuts").textContent = grouped(data.cuts);
  element("total-back-steps").textContent = grouped(data.back_steps);
  element("total-jumps").textContent = grouped(data.jumps);
  element("total-touches").textContent = grouped(data.touches);
  element("slider").max = Math.max(pairs, 1);
  element("centre-sign").hidden = home !== null;
  element("home-sign").hidden = home === null;
  if (isFile) describeFile();
}

/** A plate file tells of kinds, contours and the plate nothing. */
function describeFile() {
  const row = (id) => element(id).closest("tr");
  for (const id of ["total-back-steps", "total-jumps", "total-touches"]) row(id).hidden = true;
  for (const kind of ["back-steps", "jumps", "whole"]) element(`length-${kind}`).hidden = true;
  element("length-cuts").firstElementChild.textContent = "Pairs";
  const [, name, sign] = row("total-cuts").children;
  name.textContent = "Pairs";
  sign.textContent = "";
  for (const id of ["centre-sign", "corners-sign", "jumps"]) element(id).hidden = true;
}

function sayNothing() {
  const text = points
    ? `The path is one point, ${pointText([path[0], path[1]])}: there is no pair.`
    : isFile ? "The file holds no point: there is no path." : "No contour holds a point: there is no path.";
  element("nothing").textContent = text;
  element("nothing").hidden = false;
  element("pair-number").textContent = "No pair";
  element("spoken").textContent = text;
  for (const control of element("transport").querySelectorAll("input, button, select")) control.disabled = true;
}

window.twill = Object.freeze({
  get pair() { return current; },
  get pairs() { return pairs; },
  get isSettled() { return isSettled; },
  get frameTime() { return frameTime; },
  get view() { return { ...view }; },
  go, told,
});

describe();
makeEntries();
makeLayers();
makeLengths();
makePasses();
if (pairs) makeFacts(); else sayNothing();
listenToButtons();
listenToNumber();
listenToPointer();
document.addEventListener("keydown", onKey);
window.addEventListener("hashchange", readAddress);
window.addEventListener("beforeprint", () => { isPrinting = true; });
window.addEventListener("afterprint", () => { isPrinting = false; });
new ResizeObserver(resize).observe(element("plate"));
if (data.at !== undefined) go(data.at);
readAddress();
resize();
