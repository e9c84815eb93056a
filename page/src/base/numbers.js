// Numbers with separators: `12,345`. (The browser's own formatter is slow at its first use.)

export function grouped(number) {
  return String(number).replace(/\B(?=(\d{3})+$)/g, ",");
}

const KILO = 1000;

// A size in bytes, in the unit that gives it the fewest digits.
export function sizeOf(bytes) {
  const [unit, name] = bytes < KILO ? [1, "bytes"] : bytes < KILO * KILO ? [KILO, "KB"] : [KILO * KILO, "MB"];
  return `${grouped(Math.round(bytes / unit))} ${name}`;
}

export function countOf(number, one, many = `${one}s`) {
  return `${grouped(number)} ${number === 1 ? one : many}`;
}

// Which of several things one is, as `1st` or `1,022nd`.
export function nth(number) {
  const digits = String(number);
  const end = /1[123]$/.test(digits) ? "th" : { 1: "st", 2: "nd", 3: "rd" }[digits.at(-1)] ?? "th";
  return grouped(digits) + end;
}

// Since when a call waits, by how many calls had been made.
export function sinceText(place, lead = 0) {
  return place === lead && lead > 0 ? "before the window" : place === 0 ? "the start" : `call ${grouped(place)}`;
}
