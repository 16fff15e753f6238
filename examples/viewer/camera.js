// What is seen: a flat map, or the ground from a camera over it, as `vtex walk` has it (docs/FORMATS.md, Rows and places), in floats.
//
// A map is { mode: 'map', u, v, scale, turn }: the texel in the middle of the picture, how many texels a pixel has, and by how many radians the map is
// turned clockwise, 0 where it is not given.
// A flight is { mode: 'fly', u, v, h, c, s, focal }: the camera's place and height in texels, its heading, and its focal length in longer sides of the
// picture. The horizon lies just above the first row. With isWalk it is a picture of a path: its rows and their levels are those of `vtex walk`, and its
// focal length counts in widths.

export const FOCAL = 0.5;
const LOWEST = 1 / 64;

const around = (x, size) => ((x % size) + size) % size;

/** The level that a pixel of so many texels a side has: the greatest that is no coarser, or the nearest one. */
export function levelOf(texels, rounding, last) {
  const level = Math.log2(texels) + (rounding === 'round' ? 0.5 : 1e-9);
  return Math.min(Math.max(Math.floor(level), 0), last);
}

/** Whether a map's pages can be counted by columns and rows: it is not turned. Of other views the pixels themselves are read back. */
export const isCounted = ({ mode, turn }) => mode === 'map' && !turn;

/** A flight's focal length in pixels. */
const focalOf = ({ focal, isWalk }, width, height) => focal * (isWalk ? width : Math.max(width, height));

/** For each row of a picture from the top: where its first pixel is, the step from pixel to pixel, both in texels, and its level; eight numbers. `bias`
 *  levels are added where pages are not counted and the view is no picture of a path. */
export function rowsOf(view, store, width, height, rounding, bias = 0) {
  const rows = new Float32Array(8 * height), last = store.levels.length - 1, more = isCounted(view) || view.isWalk ? 0 : bias;
  for (let y = 0; y < height; y++) {
    const row = view.mode === 'map' ? mapRow(view, width, height, y) : flightRow(view, store, width, height, y);
    rows.set(row, 8 * y);
    rows[8 * y + 4] = Math.min(levelOf(texelsOf(view, row, width, height, y), rounding, last) + more, last);
  }
  return rows;
}

// How many texels a side a pixel of a row has. In a flight by hand a pixel is deeper than it is wide, up to hundreds of times at the horizon, and the
// mean of both sides is taken, as of a square of the same area; a picture of a path goes by the width alone, as in vtex walk.
function texelsOf(view, [, , du, dv], width, height, y) {
  if (view.mode === 'map') return Math.hypot(du, dv);
  if (view.isWalk) return Math.floor(256 * view.h / (y + 1)) / 256;
  const across = view.h / (y + 1), deep = across * focalOf(view, width, height) / (y + 2);
  return Math.sqrt(across * deep);
}

function mapRow({ u, v, scale, turn = 0 }, width, height, y) {
  if (!turn) return [u + (0.5 - width / 2) * scale, v + (y + 0.5 - height / 2) * scale, scale, 0];
  const c = scale * Math.cos(turn), s = scale * Math.sin(turn), [x, down] = [0.5 - width / 2, y + 0.5 - height / 2];
  return [u + x * c + down * s, v - x * s + down * c, c, -s];
}

// Lengths are counted in 1/256 texel, and cut to whole ones in a picture of a path, as in vtex walk.
function flightRow(view, store, width, height, y) {
  const { u, v, h, c, s, isWalk } = view, cut = isWalk ? Math.floor : (x) => x, length = focalOf(view, width, height), f = isWalk ? Math.round(length) : length;
  const p = cut(256 * h / (y + 1)), z = cut(256 * h * f / (y + 1)), side = (0.5 - width / 2) * p;
  const [across, down] = [256 * u + cut(z * c) - side * s, 256 * v + cut(z * s) + side * c];
  return [around(across / 256, store.width), around(down / 256, store.height), -p * s / 256, p * c / 256];
}

/** The place on the ground under a point of the picture, in texels, or null beside the texture. `x` and `y` are in pixels, their middles at halves. */
export function groundAt(view, store, width, height, x, y) {
  const row = Math.min(Math.max(Math.floor(y), 0), height - 1), [u, v, du, dv] = view.mode === 'map' ? mapRow(view, width, height, y - 0.5) : flightRow(view, store, width, height, row);
  const at = [u + (x - 0.5) * du, v + (x - 0.5) * dv];
  if (view.mode === 'fly') return [around(at[0], store.width), around(at[1], store.height)];
  return at[0] < 0 || at[1] < 0 || at[0] >= store.width || at[1] >= store.height ? null : at;
}

/** Where a place of the texture is in the picture, in pixels, or null where it is not before the camera. Of the copies of the ground that a flight
 *  repeats it is the one that is nearest to the camera. */
export function pictureAt(view, store, width, height, u, v) {
  if (view.mode === 'map') {
    const { scale, turn = 0 } = view, [c, s] = [Math.cos(turn), Math.sin(turn)], [x, y] = [(u - view.u) / scale, (v - view.v) / scale];
    return [width / 2 + x * c - y * s, height / 2 + x * s + y * c];
  }
  const near = (from, to, size) => around(to - from + size / 2, size) - size / 2, [x, y] = [near(view.u, u, store.width), near(view.v, v, store.height)];
  const ahead = x * view.c + y * view.s, right = y * view.c - x * view.s;
  if (ahead <= 0) return null;
  const f = focalOf(view, width, height), row = view.h * f / ahead - 1;
  return [width / 2 + right * f / ahead, row + 0.5];
}

/** Calls `told` with each page that a map's pixels want, and how many do. The pages are a rectangle, so columns and rows are counted apart. */
export function countMap({ view, rounding, filter }, store, width, height, told) {
  const level = levelOf(view.scale, rounding, store.levels.length - 1), { columns, first, ...sides } = store.levels[level];
  const [begins, below, step] = mapRow(view, width, height, 0), tile = store.tile;
  const across = counted(begins, step, width, store.width, level, sides.width, tile, filter);
  const down = counted(below, step, height, store.height, level, sides.height, tile, filter);
  for (const [row, pixels] of down) for (const [column, more] of across) told(first + row * columns + column, pixels * more);
}

// The columns (or rows) of pages that a line of pixels wants, in the numbers of the shader, and by how many pixels each.
function counted(begin, step, pixels, size, level, side, tile, filter) {
  const found = new Map();
  for (let i = 0; i < pixels; i++) {
    const at = Math.fround(Math.fround(begin) + Math.fround(i * Math.fround(step)));
    if (at < 0 || at >= size) continue;
    const place = at / 2 ** level, first = Math.floor(filter === 'bilinear' ? place - 0.5 : place);
    for (let texel = first; texel <= (filter === 'bilinear' ? first + 1 : first); texel++) {
      const page = Math.floor(Math.min(Math.max(texel, 0), side - 1) / tile);
      found.set(page, (found.get(page) ?? 0) + 1);
    }
  }
  return found;
}

/** The map that has the whole texture in a picture of this size. One so narrow that it would be thinner than two pixels is shown from its middle on, two
 *  pixels thick. */
export function fitted(store, width, height) {
  const whole = Math.max(store.width / width, store.height / height);
  return { mode: 'map', u: store.width / 2, v: store.height / 2, scale: Math.min(whole, Math.min(store.width, store.height) / 2) };
}

/** The flight whose picture has in its middle what a map has there, looking up the map. */
export function flightOver({ u, v, scale, turn = 0 }, width, height) {
  const h = scale * (height / 2 + 1), [c, s] = turn ? [-Math.sin(turn), -Math.cos(turn)] : [0, -1], z = scale * FOCAL * Math.max(width, height);
  return { mode: 'fly', u: u - z * c, v: v - z * s, h, c, s, focal: FOCAL };
}

/** The map of what a flight has in the middle of its picture. */
export function mapUnder(view, store, width, height) {
  const { u, v, h, c, s } = view, scale = h / (height / 2 + 1), z = scale * focalOf(view, width, height);
  return { mode: 'map', u: around(u + z * c, store.width), v: around(v + z * s, store.height), scale };
}

/** A flight that goes on by hand from a picture of a path. */
export function byHand(view, width, height) {
  return view.mode === 'fly' && view.isWalk ? { ...view, isWalk: false, focal: view.focal * width / Math.max(width, height) } : view;
}

/** A view within its bounds: a map's middle on the texture, and a scale from 1/64 texel up to twice the whole, at least a texel a pixel; a
 *  flight's height from 1/64 texel up to four times the longer side. */
export function bounded(view, store, width, height) {
  if (view.mode === 'map') {
    const scale = Math.min(Math.max(view.scale, LOWEST), Math.max(2 * fitted(store, width, height).scale, 1));
    return { ...view, scale, u: Math.min(Math.max(view.u, 0), store.width), v: Math.min(Math.max(view.v, 0), store.height) };
  }
  const h = Math.min(Math.max(view.h, LOWEST), 4 * Math.max(store.width, store.height));
  return { ...view, h, u: around(view.u, store.width), v: around(view.v, store.height) };
}

/** The map in which the texel under a pixel stays there while the scale changes. */
export function zoomed(view, by, x, y, width, height) {
  const scale = view.scale * by, [across, down] = stepOf(view, (x - width / 2) * (1 - by), (y - height / 2) * (1 - by));
  return { ...view, scale, u: view.u + across, v: view.v + down };
}

/** A map turned by an angle, clockwise, about a pixel. */
export function turnedMap(view, by, x, y, width, height) {
  const [u, v] = stepOf(view, x - width / 2, y - height / 2), turn = trimmed((view.turn ?? 0) + by), [nu, nv] = stepOf({ ...view, turn }, x - width / 2, y - height / 2);
  return { ...view, turn, u: view.u + u - nu, v: view.v + v - nv };
}

// An angle from above minus a half turn to a half turn; next to nothing is nothing, so that the map's pages are counted again.
function trimmed(angle) {
  const turn = angle - 2 * Math.PI * Math.round(angle / (2 * Math.PI));
  return Math.abs(turn) < 1e-6 ? 0 : turn;
}

/** A step of so many pixels right and down on a map, in texels. */
export function stepOf({ scale, turn }, right, down) {
  if (!turn) return [right * scale, down * scale];
  const [c, s] = [Math.cos(turn), Math.sin(turn)];
  return [scale * (right * c + down * s), scale * (down * c - right * s)];
}

/** The heading of a flight, turned by an angle. */
export function turned(view, by) {
  const angle = Math.atan2(view.s, view.c) + by;
  return { ...view, c: Math.cos(angle), s: Math.sin(angle) };
}

/** How levels are chosen where nothing names it: the closest one, but the finer one in a picture of a path, as in vtex walk. */
export const roundingOf = (view) => (view.isWalk ? 'floor' : 'round');
