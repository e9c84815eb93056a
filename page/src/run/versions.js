// What a receiver has of a watch at a place, by the numbers of its state.

import { grouped } from "../base/numbers.js";

// How many changes the receiver never saw since its version, since others came after them. The newest one it can still see.
function missedBy(channel, receiver) {
  return Math.max(0, channel.version - receiver.mark - 1);
}

// Returns the version that the receiver has, in few words. In a window the numbers of versions aren't the real ones.
export function versionOf(channel, receiver, isWindow) {
  if (isWindow) return receiver.seen ? "has seen it" : "hasn't seen it";
  return receiver.seen ? `has ${grouped(receiver.mark)}` : `has ${grouped(receiver.mark)} of ${grouped(channel.version)}`;
}

// The same with how many changes it missed.
export function standingOf(channel, receiver, isWindow) {
  const missed = isWindow ? 0 : missedBy(channel, receiver);
  return versionOf(channel, receiver, isWindow) + (missed ? `, missed ${grouped(missed)}` : "");
}
