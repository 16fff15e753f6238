// Types of vtex-view.js and of engine.js.

/** A flat map: the texel in the middle, texels a pixel of the device, and the turn clockwise in radians. */
export interface MapView { mode: 'map'; u: number; v: number; scale: number; turn?: number; isWalk?: boolean }

/** The ground from a camera: its place and height in texels of level 0, its heading as cosine and sine, and its focal length in longer sides of the
 *  picture. */
export interface FlightView { mode: 'fly'; u: number; v: number; h: number; c: number; s: number; focal: number; isWalk?: boolean }

export type View = MapView | FlightView;

export interface Look {
  view: View;
  filter: 'bilinear' | 'nearest';
  /** The level of a pixel between two: the closer one, or the finer one. */
  rounding: 'round' | 'floor';
  /** The samples that are black and white. */
  range: [number, number];
  colours: 'grey' | 'viridis' | 'terrain';
  hillshade: boolean;
  showsLevels: boolean;
}

export interface Level { width: number; height: number; columns: number; rows: number; first: number }

export interface Store {
  readonly width: number; readonly height: number;
  /** The side of a tile in texels. */
  readonly tile: number;
  /** The bytes of a sample: 1 or 2. */
  readonly depth: number;
  readonly pages: number; readonly levels: readonly Level[]; readonly tileBytes: number;
}

/** A part of the texture, in texels of level 0. */
export interface Region { x: number; y: number; width: number; height: number }

/** What a point shows. `level` is the level of the texel that is drawn, `wanted` the one of the pixel's size. */
export interface Value { u: number; v: number; level: number; wanted: number; page: number; samples: [number, number, number] }

export type Kind = 'address' | 'missing' | 'refused' | 'status' | 'cors' | 'headers' | 'ranges' | 'not-store' | 'replaced' | 'file' | 'path' | 'graphics' |
  'memory' | 'unreachable' | 'timeout' | 'busy' | 'broken' | 'other';

/** What ends the showing. Its message is a sentence for people. */
export class Trouble extends Error { constructor(message: string, kind?: Kind); kind: Kind }

/** A failure that may pass and is tried again. */
export class Failed extends Error { constructor(message: string, kind?: Kind); kind: Kind }

export function kindOf(error: Error): Kind;
export function sentenceOf(error: Error): string;

/** A file on a web server. `limit`: milliseconds without a byte; `keep`: whether what was read is kept in the browser. */
export class WebFile {
  constructor(url: string, options?: { limit?: number; keep?: boolean; mostWhole?: number });
  readonly url: string; readonly name: string; readonly length: number | null;
}

/** A file of this computer. */
export class LocalFile { constructor(file: Blob); readonly url: string; readonly name: string; readonly length: number }

export interface CacheOptions {
  /** Frames of the cache, 1 to 65535. */
  frames?: number;
  /** Levels that stay mapped, the coarsest ones. */
  pinned?: number;
  /** Requests at a time, and the most tiles of one. */
  parallel?: number; run?: number;
}

export interface EngineOptions extends CacheOptions, Partial<Look> {
  /** The look of a store that has opened, by its usual one; in place of the parts of the look above. */
  look?: (usual: Look, store: Store) => Look;
  heard?: (failure: Failed) => void;
  signal?: AbortSignal;
}

export interface EngineEvents {
  move: CustomEvent<View>; look: CustomEvent<Look>; draw: CustomEvent<null>; sharp: CustomEvent<null>;
  problem: CustomEvent<Failed | null>; error: CustomEvent<Error>;
}

interface Shown {
  move(view: View): void;
  set(changes: Partial<Look>): void;
  fit(): void;
  changeMode(): void;
  play(path: FlightView[] | null): void;
  sharp(): Promise<boolean>;
  texelAt(x: number, y: number): [number, number] | null;
  pointAt(u: number, v: number): [number, number] | null;
  valueAt(x: number, y: number): Promise<Value | null>;
  picture(): Promise<Blob>;
  regionPicture(region?: Region, told?: (part: number) => void): Promise<Blob>;
  destroy(): void;
}

export class Engine extends EventTarget implements Shown {
  static open(canvas: HTMLCanvasElement, source: WebFile | LocalFile, options?: EngineOptions): Promise<Engine>;
  readonly canvas: HTMLCanvasElement; readonly source: WebFile | LocalFile; readonly store: Store; readonly look: Look;
  /** The look that the store has by itself. */
  readonly usual: Look;
  readonly isSharp: boolean; readonly region: Region; readonly texelsAPixel: number | null; readonly trouble: Error | null;
  move(view: View, isWalk?: boolean): void;
  set(changes: Partial<Look>): void;
  fit(): void;
  changeMode(): void;
  play(path: FlightView[] | null, from?: number): void;
  sharp(): Promise<boolean>;
  texelAt(x: number, y: number): [number, number] | null;
  pointAt(u: number, v: number): [number, number] | null;
  valueAt(x: number, y: number): Promise<Value | null>;
  picture(): Promise<Blob>;
  regionPicture(region?: Region, told?: (part: number) => void): Promise<Blob>;
  destroy(): void;
  addEventListener<K extends keyof EngineEvents>(type: K, listener: (event: EngineEvents[K]) => void, options?: boolean | AddEventListenerOptions): void;
  addEventListener(type: string, listener: EventListenerOrEventListenerObject, options?: boolean | AddEventListenerOptions): void;
}

export interface VtexViewEvents extends EngineEvents { open: CustomEvent<Store> }

export class VtexView extends HTMLElement implements Shown {
  src: string;
  readonly engine: Engine | null; readonly store: Store | null; readonly look: Look | null; readonly words: string;
  open(file: string | Blob | WebFile | LocalFile): Promise<Engine>;
  /** Opens the same store from its first byte again, with the same look. */
  again(): Promise<Engine | null>;
  move(view: View): void;
  set(changes: Partial<Look>): void;
  fit(): void;
  north(): void;
  changeMode(): void;
  play(path: FlightView[] | null): void;
  sharp(): Promise<boolean>;
  texelAt(x: number, y: number): [number, number] | null;
  pointAt(u: number, v: number): [number, number] | null;
  valueAt(x: number, y: number): Promise<Value | null>;
  picture(): Promise<Blob>;
  regionPicture(region?: Region, told?: (part: number) => void): Promise<Blob>;
  destroy(): void;
  addEventListener<K extends keyof VtexViewEvents>(type: K, listener: (event: VtexViewEvents[K]) => void, options?: boolean | AddEventListenerOptions): void;
  addEventListener(type: string, listener: EventListenerOrEventListenerObject, options?: boolean | AddEventListenerOptions): void;
}

export interface CameraPath { width: number; height: number; focal: number; pictures: number; cameras: Float64Array }

/** A path file (docs/FORMATS.md, Paths). Throws where it is none. */
export function readPath(bytes: Uint8Array): CameraPath;

/** The pictures of a path as views. */
export function flightsOf(path: CameraPath): FlightView[];

/** A view as the words of the attribute `view`. */
export function wordsOf(view: View): string;

declare global {
  interface HTMLElementTagNameMap { 'vtex-view': VtexView }
}
