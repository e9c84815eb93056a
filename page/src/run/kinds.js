// The kinds of handles, by the numbers that the engine has for them (page/engine/src/columns.rs).

export const KINDS = ["sender", "receiver", "weak sender"];
