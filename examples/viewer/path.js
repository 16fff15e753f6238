// Reads paths by docs/FORMATS.md, Paths, for the player and for the viewer.
import { Flaw, shortened } from './errors.js';

const MOST_PICTURES = 9999;

const CAMERA = [[-(2 ** 31), 2 ** 31], [-(2 ** 31), 2 ** 31], [1, 2 ** 24], [-(2 ** 14), 2 ** 14], [-(2 ** 14), 2 ** 14]];
const NUMBER = /^(0|-?[1-9][0-9]{0,18})$/;

// The numbers of a line that begins with a word, or null where it is none of this form.
function numbersOf([word, ...fields], wanted, bounds) {
  if (word !== wanted || fields.length !== bounds.length) return null;
  const numbers = fields.map((field) => (NUMBER.test(field) ? Number(field) : NaN));
  return numbers.every((number, i) => number >= bounds[i][0] && number <= bounds[i][1]) ? numbers : null;
}

/** A path's sides of pictures, its focal number, and the camera of each picture: five numbers u, v, h, c and s in `cameras`. */
export function readPath(bytes) {
  const lines = new TextDecoder('latin1').decode(bytes).split('\n'), rest = lines.pop();
  const path = { width: 0, height: 0, focal: 0, pictures: 0, cameras: [] };
  lines.forEach((line, i) => takePathLine(path, line.split(' '), i + 1));
  if (rest !== '' || lines.length < 2) throw new Flaw(`bad line ${lines.length + 1}`, rest === '' ? 'it is missing' : 'it has no line feed');
  return { ...path, cameras: Float64Array.from(path.cameras) };
}

function takePathLine(path, fields, line) {
  const must = (numbers) => {
    if (numbers === null) throw new Flaw(`bad line ${line}`, `it is '${shortened(fields.join(' '))}'`);
    return numbers;
  };
  if (line === 1) [path.width, path.height] = must(numbersOf(fields, 'size', [[1, 2048], [1, 2048]]));
  else if (line === 2) [path.focal] = must(numbersOf(fields, 'focal', [[1, 4096]]));
  else if (fields[0] === 'at') addCameras(path, 1, must(numbersOf(fields, 'at', CAMERA)));
  else {
    const [steps, ...camera] = must(numbersOf(fields, 'to', [[1, 9999], ...CAMERA]));
    if (path.pictures === 0) throw new Flaw(`no key at line ${line}`, 'the first key is an `at` line');
    addCameras(path, steps, camera);
  }
}

function addCameras(path, steps, camera) {
  if (path.pictures + steps > MOST_PICTURES) throw new Flaw('too many pictures', `${path.pictures + steps} of at most ${MOST_PICTURES}`);
  const from = steps === 1 ? camera : path.cameras.slice(-5);
  for (let i = 1; i <= steps; i++) camera.forEach((to, at) => path.cameras.push(from[at] + Math.floor(((to - from[at]) * i) / steps)));
  path.pictures += steps;
}

/** The pictures of a path as views of the viewer: flights, in texels and in widths of the picture. None where the path has no key. */
export function flightsOf({ cameras, focal, width, pictures }) {
  return Array.from({ length: pictures }, (_, i) => {
    const [u, v, h, c, s] = cameras.subarray(5 * i, 5 * i + 5);
    return { mode: 'fly', u: u / 256, v: v / 256, h: h / 256, c: c / 16384, s: s / 16384, focal: focal / width };
  });
}
