/** Reroute in a thread of its own: the names of `reroute.mjs`, each as a promise. */
import type * as direct from './reroute.mjs';

export type { Box, Connector, Corner, Id, Lines, Pin, Scene, Settings, SharedPath, Verdict } from './reroute.mjs';
export { Refused } from './reroute.mjs';

/** The engine in its thread. */
export class Reroute {
  /** By default `reroute.wasm` beside this file; `thread` is a worker that runs this file under the name `reroute`. */
  static load(source?: string | URL | BufferSource | WebAssembly.Module, options?: { mostBytes?: number; thread?: Worker }): Promise<Reroute>;
  readonly version: number;
  /** Ends the thread, with all its sessions. */
  close(): Promise<void>;
}

type Later<Value> = Value extends (...words: infer Words) => infer Answer ? (...words: Words) => Promise<Answer> : Promise<Value>;
type Called = 'begin' | 'commit' | 'abort' | 'undo' | 'redo' | 'play' | 'close' | Edit | Read;
type Edit = 'addBox' | 'move' | 'resize' | 'drop' | 'addPin' | 'dropPin' | 'connect' | 'reconnect' | 'setClasses' | 'cut' | 'addCheckpoint' |
  'dropCheckpoint' | 'set' | 'labelBox' | 'labelConnector' | 'preview' | 'previewChanges';
type Read = 'lines' | 'changes' | 'cost' | 'sharedPaths' | 'crossings' | 'check' | 'scene' | 'boxes' | 'connectors' | 'settings' | 'gml' |
  'gmlBytes' | 'next' | 'searched' | 'boxCount' | 'connectorCount';

/** What a transaction hands to its function. The promises need not be awaited: the transaction fails with the first that does. */
export type Edits = { readonly [Name in Edit | Read]: Later<direct.Session[Name]> };

export interface Session extends Readonly<{ [Name in Called]: Later<direct.Session[Name]> }> {
  /** Transactions and trials wait for each other: do not await one inside another. */
  transaction<T>(edits: (session: Edits) => T): Promise<Awaited<T>>;
  trial(edits: (session: Edits) => unknown): Promise<direct.Lines>;
  trialChanges(edits: (session: Edits) => unknown): Promise<direct.Lines>;
}
export const Session: {
  open(options?: { gml?: string | BufferSource | null; engine?: Reroute }): Promise<Session>;
  fromGml(gml: string | BufferSource, options?: { engine?: Reroute }): Promise<Session>;
};
