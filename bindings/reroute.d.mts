/** Reroute from JavaScript: `reroute.mjs` over `reroute.wasm`. Lengths are in units, kept to thousandths. */
export type Corner = readonly [x: number, y: number];
export type Lines = Map<number, readonly Corner[]>;
export type Id = number | bigint;

/** A call that was refused. Nothing is changed by it, but that no transaction is open any more, except after a label or a `check`. */
export class Refused extends Error {
  constructor(code: number, value?: number | bigint | null, line?: number);
  /** As reroute.h numbers them: 4 for X4, 99 where there is no memory, from 101 on what is said of a diagram. */
  readonly code: number;
  /** As `UnknownNode`. */
  readonly reason: string;
  readonly value: number | bigint | null;
  /** Of a script, from 1; otherwise 0. */
  readonly line: number;
  /** The refusal that the program has put in these words, or null. */
  static fromText(text: string): Refused | null;
}

/** The engine: a module with its memory, which its sessions share. */
export class Reroute {
  /** The compiled module, which other threads may load. */
  static compiled(source?: string | URL | BufferSource | WebAssembly.Module): Promise<WebAssembly.Module>;
  /** By default `reroute.wasm` beside this file. The module loaded last is what `new Session()` takes. */
  static load(source?: string | URL | BufferSource | WebAssembly.Module, options?: { mostBytes?: number }): Promise<Reroute>;
  readonly memory: WebAssembly.Memory;
  readonly version: number;
}

export interface Pin { readonly pinClass: number; readonly dx: number; readonly dy: number; readonly sides: string }
export interface Box {
  readonly id: Id;
  readonly x: number;
  readonly y: number;
  readonly w: number;
  readonly h: number;
  readonly isGroup: boolean;
  readonly pins: readonly Pin[];
}
export interface Connector {
  readonly number: number;
  readonly start: Id;
  readonly end: Id;
  readonly startClass: number;
  readonly endClass: number;
  readonly checkpoints: readonly Corner[];
}
export interface Settings { readonly penalty: number; readonly buffer: number; readonly nudge: number }
export interface Scene { readonly boxes: readonly Box[]; readonly connectors: readonly Connector[]; readonly settings: Settings }

/** A path that the routes of two connectors share, before nudging: the runs of `a`, from 1, and those of `b`. */
export interface SharedPath {
  readonly a: number;
  readonly b: number;
  readonly first: number;
  readonly last: number;
  readonly bFirst: number;
  readonly bLast: number;
  /** Seen along `a`: the hand on which it is where the routes part, or `tie` where both stop. */
  readonly back: 'tie' | 'left' | 'right';
  readonly ahead: 'tie' | 'left' | 'right';
  /** The hand on which `a` belongs all along. */
  readonly side: 'left' | 'right' | null;
}
/** What a line costs, or its first breach, with the place of the segment or of the checkpoint, from 1, and the box that is hit. */
export interface Verdict {
  readonly breach: 'Slanted' | 'StartOff' | 'EndOff' | 'Hits' | 'MissesVia' | null;
  readonly place: number | null;
  readonly box: Id | null;
  readonly cost: number | null;
}

export interface Options { gml?: string | BufferSource | null; engine?: Reroute }

/** A scene of boxes, pins and connectors, with the lines of the connectors. */
export class Session {
  constructor(options?: Options);
  static open(options?: Options): Session;
  static fromGml(gml: string | BufferSource, options?: Options): Session;
  close(): void;

  begin(): void;
  commit(): void;
  abort(): void;
  undo(): void;
  redo(): void;
  /** Edits that hold together: a refusal or an error among them rolls all of them back. */
  transaction<T>(edits: (session: this) => T): T;
  /** Makes edits that are taken back, and answers the lines that they would give. */
  trial(edits: (session: this) => void): Lines;
  trial(edits: (session: this) => Promise<void>): Promise<Lines>;
  /** Makes edits that are taken back, and answers what of the lines would differ from those that were reported. */
  trialChanges(edits: (session: this) => void): Lines;
  trialChanges(edits: (session: this) => Promise<void>): Promise<Lines>;

  addBox(id: Id, x: number, y: number, w: number, h: number): void;
  move(id: Id, x: number, y: number): void;
  resize(id: Id, w: number, h: number): void;
  drop(id: Id): void;
  addPin(id: Id, pinClass: number, dx: number, dy: number, sides?: string): void;
  dropPin(id: Id, place: number): void;
  connect(start: Id, end: Id, startClass?: number, endClass?: number): number;
  /** Moves an end of a connector to another box, and answers its new number. The other end and the checkpoints stay; its label, its
      weight and other keys of the diagram do not. */
  reconnect(edge: number, end: 'start' | 'end', id: Id, pinClass?: number): number;
  setClasses(edge: number, startClass: number, endClass: number): void;
  cut(edge: number): void;
  addCheckpoint(edge: number, place: number, x: number, y: number): void;
  dropCheckpoint(edge: number, place: number): void;
  set(setting: 'penalty' | 'buffer' | 'nudge', value: number): void;

  /** Give what was added a label, which `gml` has; an empty one is none. No transaction need be open, and no undo takes it back. */
  labelBox(id: Id, text: string | BufferSource): void;
  labelConnector(edge: number, text: string | BufferSource): void;

  /** All lines: they are reported. */
  lines(): Lines;
  /** The lines that differ from the reported ones, without corners for a connector that has none any more, since it was cut or has
      no legal route. Then they are reported. */
  changes(): Lines;
  /** The lines that a commit of the open transaction would give. They are not reported by that. */
  preview(): Lines;
  /** What of them differs from the reported ones. */
  previewChanges(): Lines;
  /** What the route of a connector of the present scene costs, or null if it has none. */
  cost(edge: number): number | null;
  readonly searched: number;

  /** Of the present scene, whether or not a transaction is open: the paths that the routes share, and how often the lines cross. */
  sharedPaths(): readonly SharedPath[];
  crossings(): number;
  /** Judges a line of any origin as that of a connector of the present scene. */
  check(edge: number, corners: readonly Corner[]): Verdict;

  /** The scene: that of the open transaction if one is open, otherwise the present one. */
  boxes(): readonly Box[];
  /** The connectors in the order of their numbers. */
  connectors(): readonly Connector[];
  settings(): Settings;
  /** All three. */
  scene(): Scene;
  /** How many boxes and connectors it has. */
  readonly boxCount: number;
  readonly connectorCount: number;
  readonly next: number;

  gmlBytes(): Uint8Array;
  gml(): string;
  play(script: string | BufferSource): void;
}

/** The text of a diagram's bytes: UTF-8 or, as GML has it, Latin-1. */
export function textOf(bytes: Uint8Array): string;
