"use strict";
// Draws the path: plain SVG with two axes of one scale.

const EDGE = { left: 62, right: 14, top: 14, bottom: 42 };

// Chooses the grid's step: 1, 2 or 5 times a power of ten.
function gridStep(size) {
  const power = 10 ** Math.floor(Math.log10(size / 5));
  return [1, 2, 5, 10].map((k) => k * power).find((step) => size / step <= 6) || 10 * power;
}

// Returns the range of the eastings (even places) or northings (odd places), 0 included.
function range(points, odd) {
  let [low, high] = [0, 0];
  for (let i = odd; i < points.length; i += 2) {
    low = Math.min(low, points[i]);
    high = Math.max(high, points[i]);
  }
  return [low, high];
}

// Maps metres to pixels so that every place is inside. The shorter side has at least two fifths of the longer one.
function frameOf(points, wide) {
  let [east, north] = [range(points, 0), range(points, 1)];
  const longest = Math.max(east[1] - east[0], north[1] - north[0], 0.01);
  const grown = ([low, high]) => {
    const half = Math.max(high - low, 0.4 * longest) / 2 + 0.05 * longest;
    return [(low + high) / 2 - half, (low + high) / 2 + half];
  };
  [east, north] = [grown(east), grown(north)];
  const plane = wide - EDGE.left - EDGE.right;
  const scale = Math.min(plane / (east[1] - east[0]), Math.min(480, wide) / (north[1] - north[0]));
  const spare = (plane / scale - (east[1] - east[0])) / 2;
  east = [east[0] - spare, east[1] + spare];
  const high = EDGE.top + EDGE.bottom + scale * (north[1] - north[0]);
  return { east, north, wide, high, step: gridStep(longest), x: (e) => EDGE.left + scale * (e - east[0]), y: (n) => EDGE.top + scale * (north[1] - n) };
}

function gridOf(frame) {
  const { step, wide, x, y } = frame;
  const digits = Math.max(0, -Math.floor(Math.log10(step) + 1e-9));
  const ticks = ([low, high]) => {
    const out = [];
    for (let k = Math.ceil(low / step); k * step <= high; k += 1) out.push(k * step);
    return out;
  };
  const bottom = frame.high - EDGE.bottom;
  const across = ticks(frame.east).map((e) =>
    `<path class="grid" d="M${x(e).toFixed(1)} ${EDGE.top}V${bottom.toFixed(1)}"/><text x="${x(e).toFixed(1)}" y="${(bottom + 17).toFixed(1)}" text-anchor="middle">${e.toFixed(digits)}</text>`);
  const along = ticks(frame.north).map((n) =>
    `<path class="grid" d="M${EDGE.left} ${y(n).toFixed(1)}H${wide - EDGE.right}"/><text x="${EDGE.left - 6}" y="${(y(n) + 4).toFixed(1)}" text-anchor="end">${n.toFixed(digits)}</text>`);
  const names = `<text x="${wide / 2}" y="${(frame.high - 5).toFixed(1)}" text-anchor="middle">metres to the east</text>` +
    `<text transform="translate(12 ${(frame.high / 2).toFixed(1)}) rotate(-90)" text-anchor="middle">metres to the north</text>`;
  return across.join("") + along.join("") + names;
}

// Draws an answer, `wide` pixels wide. A refused epoch is a cross, and breaks the line.
function pictureOf({ points, truth, rows }, wide) {
  if (![...points, ...truth].every((v) => Math.abs(v) < 1e9)) return "<p>The path is longer than a picture holds.</p>";
  const frame = frameOf(truth.length ? points.concat(truth) : points, wide);
  const spot = (list, i) => `${frame.x(list[2 * i]).toFixed(1)} ${frame.y(list[2 * i + 1]).toFixed(1)}`;
  const [path, crosses, dots] = [[`M${spot(points, 0)}`], [], []];
  rows.forEach((row, i) => {
    const at = spot(points, i + 1);
    path.push(`${row.refusal === 0 ? "L" : "M"}${at}`);
    if (row.refusal !== 0) crosses.push(`M${at}m-5 -5l10 10m0 -10l-10 10`);
    else if (rows.length <= 200) dots.push(`<circle class="dot" r="3.2" cx="${at.replace(" ", '" cy="')}"/>`);
  });
  const known = [];
  for (let i = 0; 2 * i < truth.length; i += 1) known.push(`${i ? "L" : "M"}${spot(truth, i)}`);
  const parts = [gridOf(frame), known.length ? `<path class="truth" d="${known.join("")}"/>` : "", `<path class="path" d="${path.join("")}"/>`, ...dots, `<path class="cross" d="${crosses.join("")}"/>`];
  return `<svg width="${wide}" height="${frame.high.toFixed(0)}" viewBox="0 0 ${wide} ${frame.high.toFixed(0)}" role="img" aria-label="The path of the drive">${parts.join("")}</svg>`;
}
