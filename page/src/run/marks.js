// The marks of calls in the picture, by the numbers that the engine has for them (page/engine/src/columns.rs).

export const MARK_NAMES = ["asked", "sent", "unsent", "received", "made", "dropped", "lagged", "closed", "refused"];

export const RECEIVED = MARK_NAMES.indexOf("received");
