// The things that many modules pass on, for the type checker alone: no byte of this file is in the page.

interface Window {
  ttd: { [request: string]: (...values: any[]) => Promise<any> };
}

declare class DecompressionStream {
  constructor(format: string);
  readonly readable: ReadableStream;
  readonly writable: WritableStream;
}

interface Uint8ArrayConstructor {
  fromBase64?(text: string): Uint8Array;
}

/** An entry, as the console's `list` writes it. Stamps, values and counts stay texts: a browser would round large ones. */
interface Entry {
  number: number;
  stamp: string;
  actor: number;
  channel: number;
  word: string;
  handle: number;
  rest: string;
  reply: string;
  answer: string;
}

/** A receiver in a state: of a broadcast it has a position, unread and lag, of a watch a mark and whether the value is seen. */
interface ReceiverState {
  handle: number;
  position?: number;
  unread?: number;
  lag?: number;
  mark?: number | null;
  seen?: boolean;
}

interface ChannelState {
  kind: "broadcast" | "watch";
  closed: boolean;
  capacity?: number;
  sent?: number;
  window?: (number | string)[];
  retained?: number;
  value?: number | string;
  version?: number;
  receivers: ReceiverState[];
  senders: number[];
  weak?: number[];
}

/** What the page's address has. */
interface Address {
  /** It is null where the address has neither a place nor what is in view. */
  place: number | null;
  view: number[] | null;
  fold: string | null;
  filter: string | null;
  order: string | null;
  stop: string | null;
  /** The run that this one is compared with: the digest of its bytes, and the name of its file. */
  against: { digest: string, name: string } | null;
}

/** What was found in a run, as the names have it. */
interface Account {
  version: number;
  unknown: string[];
  facts: {
    kind: string; channel: number; receiver?: number; handle?: number; lost?: number; end?: string; changes?: number; text: string[];
    places: { place: number; line: number; role?: string; location?: [string, number, number] | null }[];
  }[];
  rest: { after: number; text: string | null };
  nothing: string | null;
  /** Where the run begins in a window: when and why that was written. */
  window?: { text: string };
  waiting: { text: string; since: number; actor?: number; channel?: number; handle?: number; location?: [string, number, number] | null }[];
  /** The tasks that wait for something else than a call. */
  tasks: { text: string }[];
  /** How the test failed, with its line. Later writers have the test's name, the text of its panic as it is, and the last call before it too. */
  failed: { text: string; place: number; location?: [string, number, number] | null; name?: string; message?: string; call?: number | null } | null;
  /** That a replay left the order that it followed, and which two steps decide whether the run fails, with the places of their calls. */
  replay: { text: string, place?: number | null } | null;
  race: { text: string, first: { text: string, place?: number | null }, then: { text: string, place?: number | null } } | null;
  failure: number | null;
  look: number;
}

interface RunState {
  place: number;
  len: number;
  channels: ChannelState[];
}

/** A handle's life: past the last place if it is never dropped. */
interface Life {
  handle: number;
  kind: string;
  from: number;
  to: number;
  /** The actor that used it last, or made it. */
  user: number | null;
  /** The place of its last call, or of the one that made it. */
  last: number;
  /** Once they are listed: the actor that made it, unless its channel opened with it, and where it is in the list. */
  maker?: number | null;
  listedAt?: number;
}

/**
 * What a receiver of a broadcast received and lost in the whole run, its greatest lag with the first place that has it, and how many values it has
 * yet to receive, the overwritten ones too, unless it was dropped. Of a receiver of a watch, how many changes it missed, and how many it
 * never looked at.
 */
interface Totals {
  channel: number;
  receiver: number;
  counts: { received: number, lost: number, worst: number, worstPlace: number, unread: number | null } | null;
  missed: number | null;
  unlooked: number | null;
}

/** By channel: the place from which on it is closed, and where the receivers that were there then were told so. */
interface Closings {
  places: (number | null)[];
  told: Map<number, number | null>[];
  /** How many values each of them received from then on. */
  readOn: Map<number, number>[];
}

/** Where the values of a channel were sent and overwritten, by number. */
interface ValuePlaces {
  sends: Uint32Array;
  overwritten: Uint32Array;
}

/** The same of all channels, one after the other. `ends` has for each channel the index past its last value, or 0 if it has none. */
interface ValueColumns extends ValuePlaces {
  ends: Uint32Array;
}

/** A receiver's longest stretch of places at which it lags: from the send that overwrote first to the call that told it, its drop, or past the end. */
interface Loss {
  channel: number;
  receiver: number;
  from: number;
  lost: number;
  end: "told" | "dropped" | "open";
  to: number;
  /** How many of the values were overwritten before the window, really and by its lead. */
  before?: number;
  here?: number;
}

/** What is opened: a file's name and bytes, and those of its file of names. */
interface Source {
  name: string;
  bytes: Uint8Array;
  names?: Uint8Array;
  namesFile?: string;
  /** What the bytes were before they were unpacked, once that is known. */
  notes?: string[];
  /** Under which the run is kept, and which the browser's history has. */
  key?: string;
  /** What is reported when it is opened. */
  notice?: (string | Node)[];
  /** Of a truncated journal: how many of its bytes are in whole lines. */
  kept?: number;
  size?: number;
}

/** A row of the picture, at its heights in the layout. Its lane is where calls are drawn, and its base the line below them. */
interface Row {
  kind: string;
  lives: Life[];
  y: number;
  height: number;
  lane: number;
  base: number;
  actor?: number;
  /** What its handle has to do with what the account tells first, if it has. */
  part?: import("./draw/parts.js").Part;
}

/** A channel's rows, or those of the actors, below their head. */
interface Band {
  key: number | string;
  channel: number | null;
  y: number;
  height: number;
  rows: Row[];
  rowOf: Map<number, Row>;
  isFolded: boolean;
  /** Where its rows are if they stay in sight over others. */
  pins?: { y: number; height: number };
}

/**
 * What the drawings of the picture pass on. `places` are those whose states are drawn, `overview` has the levels by stretches where there are
 * too many places, and top and bottom are the heights in sight.
 */
interface Drawing {
  pen: CanvasRenderingContext2D;
  run: import("./run/run.js").Run;
  view: import("./draw/view.js").View;
  frame: import("./draw/frame.js").Frame;
  folds: import("./draw/folds.js").Folds;
  palette: any;
  bands: Band[];
  band: Band;
  places: number[];
  overview: import("./draw/from_far.js").Overview;
  dots: import("./draw/from_far.js").ActorDots;
  top: number;
  bottom: number;
}
