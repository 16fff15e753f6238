// Draws by WebGL 2 what is mapped, and what the pixels want. The frames are up to eight textures of samples, sheets, each made when its first frame is
// used; the page table is another texture, of entries.
import { Trouble } from './errors.js';
import { rowsOf } from './camera.js';

const PAGES_A_ROW = 512, SHEETS = 8, FIRST_SHEET = 3, SHEET_FRAMES = 64;

// Colours for the black to the white end of a range, in steps of the same width.
const RAMPS = {
  grey: ['#000000', '#ffffff'],
  viridis: ['#440154', '#46327e', '#365c8d', '#277f8e', '#1fa187', '#4ac16d', '#a0da39', '#fde725'],
  terrain: ['#2f6b4f', '#5f9a55', '#a8bf6a', '#d9cf8a', '#c4a06a', '#9a7355', '#b8a79c', '#ffffff'],
};
const LONGEST_RAMP = 8;
const RELIEF = 8;                                          // the range is as high as this part of the longer side, where hills are shaded
const BESIDE = [0.09, 0.1, 0.12];

const COMMON = `#version 300 es
precision highp float; precision highp int; precision highp usampler2D; precision highp sampler2D;
uniform ivec2 size;               // the picture's sides
uniform int count, tile;          // levels, and a tile's side
uniform ivec4 levels[14];         // a level's width, height, columns and first page
uniform sampler2D rows;           // two texels a row: where it begins and its step; its level
uniform bool wraps, is_bilinear;  // whether the ground repeats the texture, and the filter

// Where a pixel is on the ground, and its level, or -1 where it is beside the texture.
vec2 ground(ivec2 pixel, out int level) {
  vec4 row = texelFetch(rows, ivec2(0, pixel.y), 0);
  vec2 at = row.xy + float(pixel.x) * row.zw, sides = vec2(levels[0].xy);
  level = int(texelFetch(rows, ivec2(1, pixel.y), 0).x);
  if (wraps) return min(mod(at, sides), sides - 1.0 / 1024.0);
  if (any(lessThan(at, vec2(0))) || any(greaterThanEqual(at, sides))) level = -1;
  return at;
}

int page_of(int k, ivec2 texel) { return levels[k].w + (texel.y / tile) * levels[k].z + texel.x / tile; }

// The first of the four texels of a blend, and its weights. On a map a texel's colour is in its middle, in a flight at its corner, as in vtex walk.
ivec2 corner(vec2 at, int k, out vec2 weights) {
  vec2 place = at / float(1 << k) - (wraps ? 0.0 : 0.5);
  weights = fract(place);
  return ivec2(floor(place));
}

ivec2 neighbour(ivec2 first, int i, int k) {
  ivec2 texel = first + ivec2(i & 1, i >> 1), sides = levels[k].xy;
  return wraps ? (texel + sides) % sides : clamp(texel, ivec2(0), sides - 1);
}
`;

const CORNERS = `#version 300 es
void main() { gl_Position = vec4(gl_VertexID == 1 ? 3.0 : -1.0, gl_VertexID == 2 ? 3.0 : -1.0, 0, 1); }`;

// Four pages for each block of pixels: those of four pixels of it, or those of the four texels of one.
const FEEDBACK = `${COMMON}
uniform int block; uniform ivec2 offsets[4]; out uvec4 wanted;
uint wanted_by(ivec2 pixel, int i) {
  int k; vec2 weights, at = ground(min(pixel, size - 1), k);
  if (k < 0) return 0xffffffffu;
  ivec2 texel = is_bilinear ? neighbour(corner(at, k, weights), i, k) : ivec2(at) >> k;
  return uint(page_of(k, texel));
}
void main() {
  ivec2 first = ivec2(gl_FragCoord.xy) * block;
  uint four[4];
  for (int i = 0; i < 4; i++) four[i] = wanted_by(first + offsets[is_bilinear ? 0 : i], i);
  wanted = uvec4(four[0], four[1], four[2], four[3]);
}`;

const DRAW = `${COMMON}
uniform usampler2D table, sheets[${SHEETS}]; uniform int across, a_sheet; uniform bool shows_levels, is_coloured, is_hill; uniform vec2 range;
uniform vec3 ramp[${LONGEST_RAMP}]; uniform int steps; uniform float relief; uniform vec3 beside; uniform vec2 east, south; out vec4 colour;
uvec4 sample_of(int sheet, ivec2 texel) {
  switch (sheet) {
${Array.from({ length: SHEETS }, (_, i) => `    case ${i}: return texelFetch(sheets[${i}], texel, 0);`).join('\n')}
  }
  return uvec4(0);
}
// The texel that stands for one of level k, by the first page of its page's line that is mapped.
vec3 shown(int k, ivec2 texel, out int level) {
  uint entry = 0u;
  ivec2 place = texel;
  for (level = k; level < count; level++, place >>= 1) {
    int page = page_of(level, place);
    entry = texelFetch(table, ivec2(page & ${PAGES_A_ROW - 1}, page / ${PAGES_A_ROW}), 0).r;
    if (entry != 0u) break;
  }
  int frame = int(entry) - 1, in_sheet = frame % a_sheet;
  return vec3(sample_of(frame / a_sheet, ivec2(in_sheet % across, in_sheet / across) * tile + (place & (tile - 1))).rgb);
}
vec3 filtered(vec2 at, int k, out int level) {
  if (!is_bilinear) return shown(k, clamp(ivec2(at) >> k, ivec2(0), levels[k].xy - 1), level);
  vec2 weights;
  ivec2 first = corner(at, k, weights);
  vec3 four[4];
  for (int i = 0; i < 4; i++) four[i] = shown(k, neighbour(first, i, k), level);
  return mix(mix(four[0], four[1], weights.x), mix(four[2], four[3], weights.x), weights.y);
}
// Light from the upper left of the picture, at half a right angle, on the heights of the first channel; a level surface keeps its colour.
float light(vec2 at, int k) {
  int level;
  float step = float(1 << k), unit = relief / ((range.y - range.x) * step);
  vec2 sides = vec2(levels[0].xy), most = sides - 1.0 / 1024.0;
  vec2 a = clamp(at + east * step, vec2(0), most), b = clamp(at - east * step, vec2(0), most), c = clamp(at + south * step, vec2(0), most), d = clamp(at - south * step, vec2(0), most);
  float rise = (filtered(a, k, level).r - filtered(b, k, level).r) * unit * 0.5, fall = (filtered(c, k, level).r - filtered(d, k, level).r) * unit * 0.5;
  return max(dot(normalize(vec3(-rise, -fall, 1)), vec3(-0.5, -0.5, 0.7071)), 0.0) / 0.7071;
}
void main() {
  ivec2 pixel = ivec2(gl_FragCoord.xy);
  pixel.y = size.y - 1 - pixel.y;
  int k, level;
  vec2 at = ground(pixel, k);
  if (k < 0) { colour = vec4(beside, 1); return; }
  vec3 part = (filtered(at, k, level) - range.x) / (range.y - range.x);
  if (is_coloured) {
    float place = clamp(part.r, 0.0, 1.0) * float(steps - 1);
    int low = min(int(place), steps - 2);
    part = mix(ramp[low], ramp[low + 1], place - float(low));
  }
  if (is_hill) part = clamp(part, 0.0, 1.0) * light(at, k);
  colour = vec4(part, 1);
  if (shows_levels) colour = vec4(mix(clamp(colour.rgb, 0.0, 1.0), vec3(1.0 - float(level) / float(count)), 0.7), 1);
}`;

/** WebGL 2 of a canvas, or Trouble. */
export function contextOf(canvas) {
  const gl = canvas.getContext('webgl2', { antialias: false, alpha: false, depth: false });
  if (!gl) throw new Trouble('This browser has no WebGL 2, or it is switched off. The viewer draws by it.');
  return gl;
}

/** The most frames of a screen: a sheet has at most half of the longest side that the device allows, and there are eight. */
export function mostFrames(gl, tile) {
  const across = Math.max(Math.floor(gl.getParameter(gl.MAX_TEXTURE_SIZE) / 2 / tile), 1);
  return Math.min(SHEETS * across * across, 65535);
}

const noMemory = () => new Trouble('The graphics processor has no memory for more tiles. Open the store with fewer frames (&frames= in the address).', 'memory');

const channelsOf = (colour) => [1, 3, 5].map((at) => parseInt(colour.slice(at, at + 2), 16) / 255);

// The pixels of a block, in an order in which each next few are far from each other.
const places = (block) => Array.from({ length: block * block }, (_, i) => [i % block, Math.floor(i / block)]).sort((a, b) => order(a) - order(b));

// The place's bits from the coarsest on, as digits from the last on.
function order([x, y]) {
  let number = 0;
  for (let bit = 0; bit < 4; bit++) number = 4 * number + 2 * ((x ^ y) >> bit & 1) + (y >> bit & 1);
  return number;
}

export class Screen {
  constructor(gl, store, frames) {
    Object.assign(this, { gl, store, frames, rowsFor: '', sheets: [] });
    this.sheetFrames = Math.max(Math.ceil(frames / SHEETS), Math.min(frames, SHEET_FRAMES));
    this.across = Math.ceil(Math.sqrt(this.sheetFrames));
    this.programs = { draw: this.program(DRAW), feedback: this.program(FEEDBACK) };
    gl.bindVertexArray(gl.createVertexArray());
    gl.pixelStorei(gl.UNPACK_ALIGNMENT, 1);
    this.table = this.texture(0, gl.R32UI, PAGES_A_ROW, Math.ceil(store.pages / PAGES_A_ROW));
    this.rows = null;
    this.target = gl.createRenderbuffer();
    this.buffer = gl.createFramebuffer();
    this.packed = gl.createBuffer();
    this.pending = null;
  }

  program(text) {
    const { gl } = this, made = gl.createProgram();
    for (const [kind, source] of [[gl.VERTEX_SHADER, CORNERS], [gl.FRAGMENT_SHADER, text]]) {
      const shader = gl.createShader(kind);
      gl.shaderSource(shader, source);
      gl.compileShader(shader);
      gl.attachShader(made, shader);
    }
    gl.linkProgram(made);
    if (!gl.getProgramParameter(made, gl.LINK_STATUS) && !gl.isContextLost()) {
      throw new Trouble(`This browser's WebGL refuses a shader: ${gl.getProgramInfoLog(made)} ${gl.getAttachedShaders(made).map((it) => gl.getShaderInfoLog(it)).join(' ')}`);
    }
    const at = {};
    for (let i = 0; i < gl.getProgramParameter(made, gl.ACTIVE_UNIFORMS); i++) {
      const { name } = gl.getActiveUniform(made, i);
      at[name.replace('[0]', '')] = gl.getUniformLocation(made, name);
    }
    return { made, at };
  }

  texture(unit, format, width, height) {
    const { gl } = this, made = gl.createTexture();
    gl.activeTexture(gl.TEXTURE0 + unit);
    gl.bindTexture(gl.TEXTURE_2D, made);
    gl.texStorage2D(gl.TEXTURE_2D, 1, format, width, height);
    for (const name of [gl.TEXTURE_MIN_FILTER, gl.TEXTURE_MAG_FILTER]) gl.texParameteri(gl.TEXTURE_2D, name, gl.NEAREST);
    return made;
  }

  /** How many bytes the sheets have that were made. */
  get bytes() { return this.sheets.filter(Boolean).length * this.across * Math.ceil(this.sheetFrames / this.across) * this.store.tileBytes; }

  // Makes active the sheet of a frame, and makes it where it is the first one there.
  sheetOf(frame) {
    const { gl, store, across, sheets } = this, number = Math.floor(frame / this.sheetFrames), { tile } = store;
    if (sheets[number]) {
      gl.activeTexture(gl.TEXTURE0 + FIRST_SHEET + number);
      return;
    }
    while (gl.getError() !== gl.NO_ERROR && !gl.isContextLost());  // what came before is not of this sheet
    const down = Math.ceil(this.sheetFrames / across);
    sheets[number] = this.texture(FIRST_SHEET + number, store.depth === 1 ? gl.RGB8UI : gl.RGB16UI, across * tile, down * tile);
    if (gl.getError() === gl.OUT_OF_MEMORY) throw noMemory();
  }

  /** Uploads a change: a map's tile into its frame and then its entry; of an unmap the entry goes. */
  upload(page, frame, isMap, bytes) {
    const { gl, store, across } = this, { tile } = store, place = frame % this.sheetFrames;
    if (isMap) {
      const kind = store.depth === 1 ? gl.UNSIGNED_BYTE : gl.UNSIGNED_SHORT, samples = store.depth === 1 ? bytes : wide(bytes);
      this.sheetOf(frame);
      gl.texSubImage2D(gl.TEXTURE_2D, 0, (place % across) * tile, Math.floor(place / across) * tile, tile, tile, gl.RGB_INTEGER, kind, samples);
    }
    gl.activeTexture(gl.TEXTURE0);
    gl.texSubImage2D(gl.TEXTURE_2D, 0, page % PAGES_A_ROW, Math.floor(page / PAGES_A_ROW), 1, 1, gl.RED_INTEGER, gl.UNSIGNED_INT, Uint32Array.of(isMap ? frame + 1 : 0));
  }

  // The rows of a view are one small texture.
  setRows(look) {
    const { gl } = this, { width, height } = gl.canvas, key = JSON.stringify([look.view, width, height, look.rounding, look.bias]);
    if (this.rowsFor === key) return;
    this.rowsFor = key;
    if (this.rowsHigh !== height) {
      gl.deleteTexture(this.rows);
      this.rows = this.texture(2, gl.RGBA32F, 2, height);
      this.rowsHigh = height;
    }
    gl.activeTexture(gl.TEXTURE2);
    gl.texSubImage2D(gl.TEXTURE_2D, 0, 0, 0, 2, height, gl.RGBA, gl.FLOAT, rowsOf(look.view, this.store, width, height, look.rounding, look.bias));
  }

  /** The level that the pixels of a row have by their size. */
  levelOfRow({ view, rounding, bias }, row) {
    return rowsOf(view, this.store, this.gl.canvas.width, this.gl.canvas.height, rounding, bias)[8 * row + 4];
  }

  use({ made, at }, look) {
    const { gl, store } = this;
    this.setRows(look);
    gl.useProgram(made);
    gl.uniform2i(at.size, gl.canvas.width, gl.canvas.height);
    gl.uniform1i(at.count, store.levels.length);
    gl.uniform1i(at.tile, store.tile);
    gl.uniform4iv(at.levels, store.levels.flatMap((it) => [it.width, it.height, it.columns, it.first]));
    gl.uniform1i(at.wraps, look.view.mode === 'fly' ? 1 : 0);
    gl.uniform1i(at.is_bilinear, look.filter === 'bilinear' ? 1 : 0);
    gl.uniform1i(at.rows, 2);
    return at;
  }

  /** Draws a look: { view, rounding, bias, filter, showsLevels, range, colours, hillshade, beside }. The range has the samples that are black and white;
   *  `beside` is the colour beside the texture, as three parts of 1. */
  draw(look) {
    const { gl, store } = this, at = this.use(this.programs.draw, look), ramp = RAMPS[look.colours] ?? RAMPS.grey;
    gl.uniform1i(at.table, 0);
    const made = Math.max(this.sheets.findIndex(Boolean), 0);
    gl.uniform1iv(at.sheets, Array.from({ length: SHEETS }, (_, i) => FIRST_SHEET + (this.sheets[i] ? i : made)));
    gl.uniform1i(at.across, this.across);
    gl.uniform1i(at.a_sheet, this.sheetFrames);
    gl.uniform1i(at.shows_levels, look.showsLevels ? 1 : 0);
    gl.uniform1i(at.is_coloured, look.colours && look.colours !== 'grey' ? 1 : 0);
    gl.uniform1i(at.is_hill, look.hillshade ? 1 : 0);
    gl.uniform3fv(at.ramp, Array.from({ length: LONGEST_RAMP }, (_, i) => channelsOf(ramp[Math.min(i, ramp.length - 1)])).flat());
    gl.uniform1i(at.steps, ramp.length);
    gl.uniform1f(at.relief, Math.max(store.width, store.height) / RELIEF);
    gl.uniform3f(at.beside, ...(look.beside ?? BESIDE));
    const [east, south] = axesOf(look.view);
    gl.uniform2f(at.east, ...east);
    gl.uniform2f(at.south, ...south);
    gl.uniform2f(at.range, ...look.range);
    gl.bindFramebuffer(gl.FRAMEBUFFER, null);
    gl.viewport(0, 0, gl.canvas.width, gl.canvas.height);
    gl.drawArrays(gl.TRIANGLES, 0, 3);
  }

  /** What `draw` draws, rows from the bottom up, four bytes a pixel. */
  pixels(look) {
    const { gl } = this, { width, height } = gl.canvas, all = new Uint8Array(4 * width * height);
    this.draw(look);
    gl.readPixels(0, 0, width, height, gl.RGBA, gl.UNSIGNED_BYTE, all);
    return all;
  }

  /** How many readings of the feedback have seen each pixel of a look once. */
  phases(look, block) { return look.filter === 'bilinear' ? block * block : block * block / 4; }

  /** Draws what a part of the pixels want, and begins to read it back; `seen` gives it, some pictures later. */
  want(look, block, phase) {
    const { gl } = this, at = this.use(this.programs.feedback, look);
    const width = Math.ceil(gl.canvas.width / block), height = Math.ceil(gl.canvas.height / block);
    this.setTarget(width, height);
    const list = places(block), four = look.filter === 'bilinear' ? [list[phase], [0, 0], [0, 0], [0, 0]] : list.slice(4 * phase, 4 * phase + 4);
    gl.uniform1i(at.block, block);
    gl.uniform2iv(at.offsets, four.flat());
    gl.viewport(0, 0, width, height);
    gl.drawArrays(gl.TRIANGLES, 0, 3);
    gl.bindBuffer(gl.PIXEL_PACK_BUFFER, this.packed);
    gl.bufferData(gl.PIXEL_PACK_BUFFER, 16 * width * height, gl.STREAM_READ);
    gl.readPixels(0, 0, width, height, gl.RGBA_INTEGER, gl.UNSIGNED_INT, 0);
    gl.bindBuffer(gl.PIXEL_PACK_BUFFER, null);
    this.pending = { sync: gl.fenceSync(gl.SYNC_GPU_COMMANDS_COMPLETE, 0), count: 4 * width * height };
    gl.flush();
  }

  setTarget(width, height) {
    const { gl } = this;
    gl.bindFramebuffer(gl.FRAMEBUFFER, this.buffer);
    if (this.wide === width && this.high === height) return;
    [this.wide, this.high] = [width, height];
    gl.bindRenderbuffer(gl.RENDERBUFFER, this.target);
    gl.renderbufferStorage(gl.RENDERBUFFER, gl.RGBA32UI, width, height);
    gl.framebufferRenderbuffer(gl.FRAMEBUFFER, gl.COLOR_ATTACHMENT0, gl.RENDERBUFFER, this.target);
  }

  /** What the last `want` has read, as page indexes, or null while it is under way. */
  seen() {
    const { gl, pending } = this;
    if (!pending) return null;
    const status = gl.clientWaitSync(pending.sync, 0, 0);
    if (status === gl.TIMEOUT_EXPIRED) return null;
    gl.deleteSync(pending.sync);
    const ids = new Uint32Array(pending.count);
    gl.bindBuffer(gl.PIXEL_PACK_BUFFER, this.packed);
    gl.getBufferSubData(gl.PIXEL_PACK_BUFFER, 0, ids);
    gl.bindBuffer(gl.PIXEL_PACK_BUFFER, null);
    this.pending = null;
    return ids;
  }

  /** Gives the textures, buffers and programs back. */
  close() {
    const { gl } = this;
    for (const it of [this.table, this.rows, ...this.sheets]) if (it) gl.deleteTexture(it);
    for (const { made } of Object.values(this.programs)) gl.deleteProgram(made);
    gl.deleteRenderbuffer(this.target);
    gl.deleteFramebuffer(this.buffer);
    gl.deleteBuffer(this.packed);
  }
}

// The directions on the ground that are right and down in the picture.
function axesOf({ mode, turn = 0, c, s }) {
  if (mode === 'fly') return [[-s, c], [-c, -s]];
  return [[Math.cos(turn), -Math.sin(turn)], [Math.sin(turn), Math.cos(turn)]];
}

// Samples of two bytes, the more significant first, as numbers.
function wide(bytes) {
  const view = new DataView(bytes.buffer, bytes.byteOffset, bytes.length), samples = new Uint16Array(bytes.length / 2);
  for (let i = 0; i < samples.length; i++) samples[i] = view.getUint16(2 * i);
  return samples;
}
