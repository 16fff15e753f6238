// The words of an address: what is opened, and what is seen. A word that is wrong is left out, and a sentence names it.
import { FOCAL, roundingOf } from './camera.js';

const FILTERS = ['bilinear', 'nearest'], ROUNDINGS = ['round', 'floor'];

/** The colours that samples of two bytes can have. */
export const COLOURS = ['grey', 'viridis', 'terrain'];

const short = (number, digits = 2) => String(Number(number.toFixed(digits)));
const degrees = (angle) => angle * 180 / Math.PI;
const radians = (angle) => angle * Math.PI / 180;

/** A view as the address has it, as map=512,256,1.5 or fly=512,256,40,-90. */
export function wordsOf(view) {
  if (view.mode === 'map') return `map=${short(view.u)},${short(view.v)},${short(view.scale, 5)}${view.turn ? ',' + short(degrees(view.turn)) : ''}`;
  const turn = degrees(Math.atan2(view.s, view.c));
  return `fly=${[view.u, view.v, view.h, turn].map((it) => short(it)).join(',')}${view.focal === FOCAL ? '' : ',' + short(view.focal, 4)}`;
}

/** The view that such words name, or null. A scale or a height of 0 or less is none. */
export function viewOf(mode, text) {
  const fields = text.split(','), numbers = fields.map(Number), least = mode === 'map' ? 3 : 4;
  if (fields.length < least || fields.length > least + 1 || !fields.every((it, i) => it.trim() !== '' && Number.isFinite(numbers[i]))) return null;
  const [u, v, third, turn = 0, focal = FOCAL] = numbers;
  if (third <= 0 || focal <= 0) return null;
  if (mode === 'map') return { mode, u, v, scale: third, ...(turn ? { turn: radians(turn) } : {}) };
  return { mode, u, v, h: third, c: Math.cos(radians(turn)), s: Math.sin(radians(turn)), focal };
}

/** The words of a look: of its view, and of what differs from `usual`, the look that a store has by itself. */
export function wordsOfLook(look, usual) {
  const { view, filter, rounding, range, colours, hillshade, showsLevels } = look, parts = [wordsOf(view)];
  if (filter !== usual.filter) parts.push('filter=' + filter);
  if (rounding !== roundingOf(view)) parts.push('level=' + rounding);
  if (range.some((it, i) => it !== usual.range[i])) parts.push('range=' + range.join(','));
  if (colours !== usual.colours) parts.push('colours=' + colours);
  if (hillshade) parts.push('hillshade');
  if (showsLevels) parts.push('levels');
  return parts.join('&');
}

/** The look that an address names, beside the usual one, for which it names none of its words. `flaws` has a sentence for each wrong word. */
export function lookOf(address, usual, depth = 1) {
  const look = { ...usual, hillshade: false, showsLevels: false }, flaws = [], most = depth === 1 ? 255 : 65535;
  const words = new URLSearchParams(address.replace(/^#/, '').replaceAll('+', '%2B'));
  const wrong = (name, value, allowed) => flaws.push(`The address has ${name}=${value}; ${allowed}.`);
  const takes = {
    map: (value) => { look.view = viewOf('map', value) ?? (wrong('map', value, 'a map is u,v,scale or u,v,scale,turn, numbers with a scale above 0'), look.view); },
    fly: (value) => { look.view = viewOf('fly', value) ?? (wrong('fly', value, 'a flight is u,v,height,turn, numbers with a height above 0'), look.view); },
    filter: (value) => (FILTERS.includes(value) ? look.filter = value : wrong('filter', value, 'a filter is nearest or bilinear')),
    level: (value) => (ROUNDINGS.includes(value) ? look.rounding = value : wrong('level', value, 'a level is round or floor')),
    range: (value) => {
      const numbers = value.split(',').map((it) => (/^\d{1,5}$/.test(it) ? Number(it) : NaN));
      if (numbers.length === 2 && numbers[0] < numbers[1] && numbers[1] <= most) look.range = numbers;
      else wrong('range', value, `a range is two whole numbers from 0 to ${most}, the lower first`);
    },
    colours: (value) => (COLOURS.includes(value) ? look.colours = value : wrong('colours', value, `colours are ${COLOURS.join(', ')}`)),
    hillshade: () => { look.hillshade = true; },
    levels: () => { look.showsLevels = true; },
  };
  for (const [name, value] of words) takes[name]?.(value);
  if (!words.has('level')) look.rounding = roundingOf(look.view);
  return { look, flaws };
}

const NUMBERS = { frames: [1, 65535], pinned: [1, 14], parallel: [1, 64], run: [1, 65535], block: [1, 16] };

/** What the words of an address ask of the engine: whole numbers within their bounds. `flaws` has a sentence for each wrong word. */
export function optionsOf(words) {
  const options = {}, flaws = [];
  for (const [name, [least, most]] of Object.entries(NUMBERS)) {
    const text = words.get(name);
    if (text === null || text === '') continue;
    if (/^\d{1,9}$/.test(text) && Number(text) >= least && Number(text) <= most) options[name] = Number(text);
    else flaws.push(`The address has ${name}=${text}; it is a whole number from ${least} to ${most}. The page chose one itself.`);
  }
  if (words.get('module') === '32') options.is64 = false;
  return { options, flaws };
}
