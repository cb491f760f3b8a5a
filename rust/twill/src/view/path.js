// The path, and what follows from its marks.

const START = 0, CUT = 1, BACK_STEP = 2, JUMP = 3, TOUCH = 4;
const KINDS = ["start", "cut", "back-step", "jump", "touch"];
const COLOURS = ["#111111", "#111111", "#d55e00", "#0072b2", "#5d3a9b"];
/** A layer's dashes are by its number modulo 4: pairs of a place within a period and a length, in
 *  pixels. Its colour goes on by one after each four, so that no two of sixteen layers look alike. */
const LAYER_COLOURS = ["#111111", "#007a53", "#a8327d", "#7a5200"];
const LAYER_DASHES = [
  null,
  { period: 11.5, pieces: [[0, 8]] },
  { period: 4.8, pieces: [[0, 2]] },
  { period: 15, pieces: [[0, 8], [10.5, 2]] },
];
const PALE = "#b9c2cc", FRAME = "#8a6fb0", EDGE = "#333333", HALO = "#f0e442", SHEET = "#ffffff";

const element = (id) => document.getElementById(id);
const data = JSON.parse(element("data").textContent);
/** The parked point; null where the start is told by the centre. */
const home = data.home ?? null;
/** Whether the path is a plate file's, which has no marks: those here are a start and cuts. */
const isFile = data.blocks !== undefined;
/** How many points a block of a plate file holds. */
const BLOCK_POINTS = 31;

// ---- The path: all that is shown of it follows from the data block.

const path = Float64Array.from(data.path);
const marks = Uint32Array.from(data.marks);
const lengths = Float64Array.from(data.lengths);
const points = path.length / 2;
const pairs = Math.max(points - 1, 0);

/** A pair's length as it counts in a quotation: in 1,024ths, rounded down. Times 1,024 nothing is rounded. */
const countedLength = (pair) => Math.floor(lengths[pair - 1] * 1024);

/** The first vertex of each contour. */
const firsts = new Uint32Array(data.contours.length);
data.contours.reduce((first, length, contour) => { firsts[contour] = first; return first + length; }, 0);

const kindOf = (point) => marks[2 * point];
const referenceOf = (point) => marks[2 * point + 1];
/** Whether a pair goes over to a contour that was not entered before. */
const isEntry = (pair) => kindOf(pair) === JUMP || kindOf(pair) === TOUCH;

/** The vertex of each path point. */
const vertices = new Uint32Array(points);
/** For each pair the cut, jump or touch that it is, or that it goes back over. */
const grooves = new Uint32Array(points);
/** 1 for each pair that goes along its groove against the sense in which that was engraved. */
const against = new Uint8Array(points);
/** The jumps' pair numbers and the touches', in order. */
const jumps = new Uint32Array(data.jumps), touches = new Uint32Array(data.touches);
(() => {
  let jump = 0, touch = 0;
  for (let i = 0; i < points; i++) {
    const kind = kindOf(i), reference = referenceOf(i);
    vertices[i] = reference;
    grooves[i] = i;
    if (kind === CUT && vertices[i - 1] === reference) {
      vertices[i] = reference + 1;
    } else if (kind === BACK_STEP) {
      vertices[i] = vertices[reference];
      grooves[i] = grooves[reference + 1];
      against[i] = 1 - against[reference + 1];
    } else if (kind === JUMP) {
      jumps[jump++] = i;
    } else if (kind === TOUCH) {
      touches[touch++] = i;
    }
  }
  // A path from elsewhere may cut from another vertex that has the coordinates of a segment's end.
  if (data.vertices) vertices.set(data.vertices);
})();

/** How many of the sorted numbers are at most this one. */
function countUpTo(numbers, limit) {
  let low = 0, high = numbers.length;
  while (low < high) {
    const middle = (low + high) >>> 1;
    if (numbers[middle] <= limit) low = middle + 1; else high = middle;
  }
  return low;
}

/** The contour of a vertex and its number within it. Of contours with the same first vertex
 *  only the last holds a point. */
function locate(vertex) {
  const contour = countUpTo(firsts, vertex) - 1;
  return [contour, vertex - firsts[contour]];
}

// ---- Layers. A plate without layers has none in the data.

const layers = data.layers ?? null;
const layerOfContour = (contour) => (layers ? layers[contour] : 0);

/** For each pair the layer of the contour whose groove it is or goes back over; a jump's or touch's is
 *  that of the contour that it lands on. */
const pairLayers = new Uint32Array(points);
if (layers) for (let i = 0; i < points; i++) pairLayers[i] = layerOfContour(locate(vertices[grooves[i]])[0]);

/** The layers of the contours that hold a point, with how many cuts and contours they have. */
const layerCounts = (() => {
  const counts = new Map();
  if (layers) data.contours.forEach((length, contour) => {
    if (!length) return;
    const layer = layerOfContour(contour), count = counts.get(layer) ?? { layer, cuts: 0, contours: 0 };
    count.cuts += length - 1;
    count.contours += 1;
    counts.set(layer, count);
  });
  return [...counts.values()].sort((a, b) => a.layer - b.layer);
})();

const layerColour = (layer) => LAYER_COLOURS[(layer + Math.floor(layer / 4)) % 4];
const layerDashes = (layer) => LAYER_DASHES[layer % 4];

/** The colour in which a pair is drawn. */
const colourOf = (pair) => (kindOf(pair) === CUT ? layerColour(pairLayers[pair]) : COLOURS[kindOf(pair)]);

// ---- Passes: how often the path runs over each groove, in either direction. A groove is known by the
// first pair over it; pairs between equal points are none.

/** For each pair the first over the same groove; 0 where there is none. */
const firstPasses = new Uint32Array(points);
firstPasses.set(data.first_passes, points ? 1 : 0);
/** For each pair how many have run over its groove by then. */
const passRanks = new Uint32Array(points);
/** For each groove's first pair how many run over it in all, and where its pairs begin in the list. */
const passTotals = new Uint32Array(points), passPlaces = new Uint32Array(points);
for (let i = 1; i < points; i++) if (firstPasses[i]) passRanks[i] = ++passTotals[firstPasses[i]];
/** The pairs over each groove, one groove after the other. */
const passPairs = (() => {
  const list = new Uint32Array(pairs);
  let place = 0;
  for (let i = 1; i < points; i++) {
    const first = firstPasses[i];
    if (first === i) { passPlaces[i] = place; place += passTotals[i]; }
    if (first) list[passPlaces[first] + passRanks[i] - 1] = i;
  }
  return list.subarray(0, place);
})();
const pairsOver = (first) => passPairs.subarray(passPlaces[first], passPlaces[first] + passTotals[first]);

/** Grooves are in classes by their passes: 1, 2, 3 to 4, 5 to 8 and so on, and 33 or more. The more there
 *  are, the darker and the wider a groove is drawn; widths are in pixels. */
const PASS_COLOURS = ["#7f93a6", "#e06b2d", "#cc4778", "#9c179e", "#6a00a8", "#34057d", "#000000"];
const PASS_WIDTHS = [1.4, 2, 2.6, 3.2, 3.8, 4.4, 5];
const passClass = (passes) => Math.min(32 - Math.clz32(passes - 1), PASS_COLOURS.length - 1);

/** The classes that occur, with the passes from and to which they go and how many grooves are in them. */
const passCounts = (() => {
  const last = PASS_COLOURS.length - 1;
  const counts = PASS_COLOURS.map((_, at) => (
    { at, from: at ? 2 ** (at - 1) + 1 : 1, to: at === last ? null : 2 ** at, grooves: 0 }));
  for (let i = 1; i < points; i++) if (firstPasses[i] === i) counts[passClass(passTotals[i])].grooves++;
  return counts.filter(({ grooves }) => grooves > 0);
})();

/** The passes over a pair's groove; null if it is none. */
function passesOf(pair) {
  const first = firstPasses[pair];
  if (!first) return null;
  return { now: passRanks[pair], all: passTotals[first], first, last: pairsOver(first).at(-1) };
}

/** What the panel shows of a pair; null if there is none of this number. */
function told(number) {
  if (!(number >= 1 && number <= pairs)) return null;
  const at = (point) => [path[2 * point], path[2 * point + 1]];
  const kind = kindOf(number), reference = referenceOf(number);
  const groove = grooves[number];
  const result = {
    number, kind: isFile ? "pair" : KINDS[kind], mark: [kind, reference], length: lengths[number - 1],
    from: at(number - 1), to: at(number),
    fromVertex: locate(vertices[number - 1]), toVertex: locate(vertices[number]),
    reversed: kind === BACK_STEP ? reference + 1 : null, groove, grooveKind: KINDS[kindOf(groove)],
    contour: null, segment: null, sense: null, layer: layers ? pairLayers[number] : null,
    counted: countedLength(number), passes: passesOf(number),
  };
  if (kindOf(groove) === CUT) {
    [result.contour, result.segment] = locate(referenceOf(groove));
    result.sense = vertices[groove] > vertices[groove - 1] ? "forward" : "reversed";
  }
  return result;
}

// ---- What is drawn: each groove once, and beside it once for each sense in which the path goes
// over it again. The items are pair numbers in order, so what a pair has drawn is a first part.

const runs = new Float64Array(points);
const kindItems = (() => {
  const again = new Uint8Array(points);
  const kept = new Uint32Array(pairs);
  let count = 0;
  for (let i = 1; i < points; i++) {
    // Along a run of back-steps or of cuts the dashes go on from one pair to the next.
    if (kindOf(i - 1) === kindOf(i) && !isEntry(i)) runs[i] = runs[i - 1] + lengths[i - 2];
    if (kindOf(i) !== BACK_STEP) { kept[count++] = i; continue; }
    const sense = 1 + against[i];
    if (again[grooves[i]] & sense) continue;
    again[grooves[i]] |= sense;
    kept[count++] = i;
  }
  return kept.slice(0, count);
})();

/** By passes a groove is drawn again whenever it comes to a further class. */
let passItems = null;
const itemsOf = ({ byPasses }) => {
  if (!byPasses) return kindItems;
  const isFurther = (pair) => passRanks[pair] === 1 || passClass(passRanks[pair]) > passClass(passRanks[pair] - 1);
  passItems ??= passPairs.filter(isFurther).sort();
  return passItems;
};

/** Whether a path point is on a contour that has no segment. */
const isLone = (point) => data.contours[locate(vertices[point])[0]] === 1;

const bounds = (() => {
  let [left, top, right, bottom] = [Infinity, Infinity, -Infinity, -Infinity];
  for (let i = 0; i < path.length; i += 2) {
    left = Math.min(left, path[i]); right = Math.max(right, path[i]);
    top = Math.min(top, path[i + 1]); bottom = Math.max(bottom, path[i + 1]);
  }
  if (!points) return { left: 0, top: 0, right: data.width || 1, bottom: data.height || 1 };
  // The plate's own rectangle and the parked point are shown too, unless the contours would become
  // small by them.
  const size = Math.max(right - left, bottom - top);
  const widened = (box, x0, y0, x1, y1) => {
    const outer = {
      left: Math.min(box.left, x0), top: Math.min(box.top, y0),
      right: Math.max(box.right, x1), bottom: Math.max(box.bottom, y1),
    };
    const isNear = !size || Math.max(outer.right - outer.left, outer.bottom - outer.top) <= 2 * size;
    return isNear ? outer : box;
  };
  let box = { left, top, right, bottom };
  if (data.width && data.height) box = widened(box, 0, 0, data.width, data.height);
  return home ? widened(box, ...home, ...home) : box;
})();
