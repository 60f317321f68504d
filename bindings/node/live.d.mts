/** Reroute from Node, over the program `reroute_live`. Lengths are in units, kept to thousandths. */
export type Corner = readonly [x: number, y: number];
export type Lines = Map<number, readonly Corner[]>;
export type Id = number | bigint;

export interface Pin { readonly pinClass: number; readonly dx: number; readonly dy: number; readonly sides: string }
export interface Box {
  readonly id: Id;
  readonly x: number;
  readonly y: number;
  readonly w: number;
  readonly h: number;
  readonly isGroup: boolean;
  readonly pins: readonly Pin[];
}
export interface Connector {
  readonly number: number;
  readonly start: Id;
  readonly end: Id;
  readonly startClass: number;
  readonly endClass: number;
  readonly checkpoints: readonly Corner[];
  /** Of its route in the present scene, before nudging; null if it has none. */
  readonly cost: number | null;
}
export interface Settings { readonly penalty: number; readonly buffer: number; readonly nudge: number }
export interface Scene { readonly boxes: readonly Box[]; readonly connectors: readonly Connector[]; readonly settings: Settings }

/** A path that the routes of two connectors share, before nudging: `first` and `last` are runs of `a`, counted from 1. */
export interface SharedPath {
  readonly a: number;
  readonly b: number;
  readonly first: number;
  readonly last: number;
  /** Seen along `a`: the hand on which it is where the routes part, or `tie` where both stop. */
  readonly back: 'tie' | 'left' | 'right';
  readonly ahead: 'tie' | 'left' | 'right';
  /** The hand on which `a` belongs all along. */
  readonly side: 'left' | 'right' | null;
}

/** What a line costs, or its first breach, with the place of the segment or of the checkpoint, from 1, and the box that is hit. */
export interface Verdict {
  readonly breach: 'Slanted' | 'StartOff' | 'EndOff' | 'Hits' | 'MissesVia' | null;
  readonly place: number | null;
  readonly box: Id | null;
  readonly cost: number | null;
}

/** A command that was refused. Nothing is changed by it, but that no transaction is open any more, except after a label or a `check`. */
export class Refused extends Error {
  /** As reroute.h numbers them: 4 for X4, 99 where no memory is left. */
  readonly code: number;
  /** As `UnknownNode`. */
  readonly reason: string;
  readonly value: number | bigint | null;
}

/** The program could not be started, or has ended. */
export class Ended extends Error {}

/** The lines that changed, those that are gone without corners; in `for await` also each later change. */
export interface Changes extends Lines, AsyncIterable<Lines> {}

/** A scene with its lines, beside a running program. */
export class Session {
  private constructor();
  /** By default the program of this package, or else `reroute_live` of the path; `diagram` is the name of a file. */
  static open(program?: string, options?: { diagram?: string | null; workers?: 1 | 2 | 3 | 4 }): Promise<Session>;
  /** Ends the program, and answers its exit status, or null if it had none. */
  close(): Promise<number | null>;

  /** Edits that hold together: a refusal or an error among them drops all of them. Others wait for them. */
  transaction<T>(edits: (session: this) => T | Promise<T>): Promise<T>;
  /** Makes edits that are dropped again, and answers the lines that they would give. */
  trial(edits: (session: this) => unknown): Promise<Lines>;
  /** The same, and answers what `changes` would tell after a commit of them. */
  trialChanges(edits: (session: this) => unknown): Promise<Lines>;
  undo(): Promise<void>;
  redo(): Promise<void>;

  addBox(box: Id, x: number, y: number, w: number, h: number): Promise<void>;
  move(box: Id, x: number, y: number): Promise<void>;
  resize(box: Id, w: number, h: number): Promise<void>;
  drop(box: Id): Promise<void>;
  addPin(box: Id, pinClass: number, dx: number, dy: number, sides?: string): Promise<void>;
  dropPin(box: Id, place: number): Promise<void>;
  connect(start: Id, end: Id, startClass?: number, endClass?: number): Promise<number>;
  /** Moves an end of a connector to another box, and answers its new number. The other end and the checkpoints stay; its label, its
      weight and other keys of the diagram do not. */
  reconnect(edge: number, end: 'start' | 'end', box: Id, pinClass?: number): Promise<number>;
  setClasses(edge: number, startClass: number, endClass: number): Promise<void>;
  cut(edge: number): Promise<void>;
  addCheckpoint(edge: number, place: number, x: number, y: number): Promise<void>;
  dropCheckpoint(edge: number, place: number): Promise<void>;
  set(setting: 'penalty' | 'buffer' | 'nudge', value: number): Promise<void>;

  /** Give what was added a label, which `gml` has; an empty one is none. No undo takes it back. */
  labelBox(box: Id, text: string): Promise<void>;
  labelConnector(edge: number, text: string): Promise<void>;

  lines(): Lines;
  /** What differs from what `lines` or `changes` told last. */
  changes(): Changes;
  /** The lines that a commit of the open transaction would give. */
  preview(): Promise<Lines>;
  /** What `changes` would tell after that commit. */
  previewChanges(): Promise<Lines>;

  /** The scene of the open transaction, if one is open, otherwise the present one. */
  scene(): Promise<Scene>;

  /** Of the present scene, whether or not a transaction is open. */
  sharedPaths(): Promise<readonly SharedPath[]>;
  crossings(): Promise<number>;
  check(edge: number, corners: readonly Corner[]): Promise<Verdict>;

  gmlBytes(): Promise<Uint8Array>;
  gml(): Promise<string>;
  /** Sends one line of the protocol; it does not wait for a transaction. */
  say(command: string): Promise<(string | Uint8Array)[]>;
}
