// What the hand does in a canvas: dragging with inertia, the wheel, pinching, and keys. It moves an engine.
import { stepOf, turned, turnedMap, zoomed } from './camera.js';

const ratio = () => devicePixelRatio || 1;
const isStill = () => matchMedia('(prefers-reduced-motion: reduce)').matches;

const DECAY = 200, SLOWEST = 0.02, LATE = 60;              // inertia: milliseconds to an e-th, pixels a millisecond at the end, age of a last move in ms
const TWIST = 0.15, QUARTER = Math.PI / 12;                // two fingers turn a map from so many radians on; a key turns it by 15 degrees

// A step over the ground in a flight's heading and to its right.
const walked = (view, ahead, right) => ({ ...view, u: view.u + ahead * view.c - right * view.s, v: view.v + ahead * view.s + right * view.c });

function dragged(engine, dx, dy) {
  const { view } = engine.look;
  engine.path = null;
  if (view.mode === 'map') {
    const [u, v] = stepOf(view, dx, dy);
    engine.move({ ...view, u: view.u - u, v: view.v - v });
  } else engine.move({ ...turned(view, dx / 400), h: view.h * 2 ** (dy / 200) });
}

function grown(engine, by, x, y) {
  const { look: { view }, canvas } = engine;
  engine.path = null;
  if (view.mode === 'map') engine.move(zoomed(view, by, x ?? canvas.width / 2, y ?? canvas.height / 2, canvas.width, canvas.height));
  else engine.move({ ...view, h: view.h * by });
}

function twisted(engine, by, x, y) {
  const { look: { view }, canvas } = engine;
  if (view.mode === 'map') engine.move(turnedMap(view, by, x ?? canvas.width / 2, y ?? canvas.height / 2, canvas.width, canvas.height));
  else engine.move(turned(view, by));
}

/** Turns a map so that the texture's first row is up. */
export function north(engine) {
  const { view } = engine.look;
  if (view.mode === 'map') engine.move({ ...view, turn: 0 });
}

/** Shows a texel a pixel. */
export function oneToOne(engine) {
  if (engine.look.view.mode === 'fly') engine.changeMode();
  engine.move({ ...engine.look.view, scale: 1 });
}

/** Binds a canvas to the engine that `engineOf` returns, or to nothing where it returns null. `more` has keys beside those of every view, each a function.
 *  Letters act while the canvas has the focus, and only then. Returns a function that ends it. */
export function takeHands(canvas, engineOf, more = {}) {
  const ends = new AbortController(), on = (name, does, how = {}) => canvas.addEventListener(name, (event) => engineOf()?.look && does(event, engineOf()), { signal: ends.signal, ...how });
  takePointers(canvas, on, engineOf);
  on('wheel', (event, engine) => {
    event.preventDefault();
    const turn = event.deltaY * [1, 30, 300][event.deltaMode], { view } = engine.look, { x, y } = placed(event);
    engine.path = null;
    if (event.shiftKey && view.mode === 'map') twisted(engine, (event.deltaY || event.deltaX) / 600, x, y);
    else if (view.mode === 'map') grown(engine, 2 ** (turn / 300), x, y);
    else engine.move(walked(view, -turn * view.h / 100, 0));
  }, { passive: false });
  on('dblclick', (event, engine) => grown(engine, event.shiftKey ? 2 : 0.5, placed(event).x, placed(event).y));
  on('keydown', (event, engine) => {
    if (event.ctrlKey || event.metaKey || event.altKey) return;
    const keys = { ...keysOf(engine), ...more }, does = keys[event.key.length === 1 ? event.key.toLowerCase() : event.key];
    if (!does) return;
    event.preventDefault();
    does();
  });
  return () => ends.abort();
}

const placed = (event) => ({ x: event.offsetX * ratio(), y: event.offsetY * ratio() });

function takePointers(canvas, on, engineOf) {
  const downs = new Map();
  let speed = [0, 0], last = 0, twist = 0, coasting = 0;
  const middle = () => [...downs.values()].reduce(([x, y], it) => [x + it.x / downs.size, y + it.y / downs.size], [0, 0]);
  const between = () => {
    const [a, b] = downs.values();
    return b ? { spread: Math.hypot(a.x - b.x, a.y - b.y), angle: Math.atan2(b.y - a.y, b.x - a.x) } : { spread: 0, angle: 0 };
  };
  const rest = () => {
    cancelAnimationFrame(coasting);
    speed = [0, 0];
  };
  on('pointerdown', (event) => {
    rest();
    canvas.setPointerCapture(event.pointerId);
    downs.set(event.pointerId, placed(event));
    twist = 0;
  });
  on('pointermove', (event, engine) => {
    if (!downs.has(event.pointerId)) return;
    const [x, y] = middle(), before = between();
    downs.set(event.pointerId, placed(event));
    const [newX, newY] = middle(), after = between(), now = event.timeStamp, time = Math.max(now - last, 4);
    if (event.shiftKey && downs.size === 1 && engine.look.view.mode === 'map') {
      twisted(engine, (newX - x) / 200);
      return;
    }
    dragged(engine, newX - x, newY - y);
    speed = now - last > LATE ? [0, 0] : [0, 1].map((i) => 0.6 * speed[i] + 0.4 * [newX - x, newY - y][i] / time);
    last = now;
    if (!before.spread || !after.spread) return;
    grown(engine, before.spread / after.spread, newX, newY);
    const by = Math.atan2(Math.sin(after.angle - before.angle), Math.cos(after.angle - before.angle));
    twist += by;
    if (Math.abs(twist) > TWIST && engine.look.view.mode === 'map') twisted(engine, by, newX, newY);
  });
  const up = (event) => {
    if (!downs.delete(event.pointerId) || downs.size > 0) return;
    if (event.type === 'pointerup' && event.timeStamp - last < LATE && !isStill()) coast(performance.now());
  };
  for (const name of ['pointerup', 'pointercancel', 'lostpointercapture']) on(name, up);
  on('wheel', rest, { passive: true });
  on('keydown', rest);
  const coast = (before) => {
    coasting = requestAnimationFrame((now) => {
      const engine = engineOf(), time = Math.max(now - before, 0);
      if (!engine?.look || Math.hypot(...speed) < SLOWEST || downs.size > 0) return;
      dragged(engine, speed[0] * time, speed[1] * time);
      speed = speed.map((it) => it * Math.exp(-time / DECAY));
      coast(now);
    });
  };
}

function keysOf(engine) {
  const step = (right, down) => {
    const { look: { view }, canvas } = engine;
    if (view.mode === 'map') dragged(engine, -right * canvas.width / 8, -down * canvas.width / 8);
    else engine.move(walked(turned(view, right * Math.PI / 36), -down * view.h / 2, 0));
  };
  const [near, far, fit] = [() => grown(engine, 0.8), () => grown(engine, 1.25), () => engine.fit()];
  return {
    ArrowLeft: () => step(-1, 0), ArrowRight: () => step(1, 0), ArrowUp: () => step(0, -1), ArrowDown: () => step(0, 1),
    '+': near, '=': near, PageDown: near, '-': far, PageUp: far, f: fit, 0: fit, Home: fit, 1: () => oneToOne(engine), m: () => engine.changeMode(),
    '[': () => twisted(engine, -QUARTER), ']': () => twisted(engine, QUARTER), n: () => north(engine),
    b: () => engine.set({ filter: engine.look.filter === 'nearest' ? 'bilinear' : 'nearest' }), l: () => engine.set({ showsLevels: !engine.look.showsLevels }),
  };
}
