// The colours of the picture, which the style sheet names for light and dark.

export const ACTOR_COLOURS = 8;
const NAMES = ["ink", "mute", "line", "card", "head", "lag", "lag-ink", "lag-ground", "unread", "unread-ink", "unseen", "unseen-ink", "closed", "hatch",
  "hatch-line", "place", "place-line", "alive", "alive-sender", "frame", "on-dark", "on-actor", "hit"];

export const FONT = "12px system-ui, 'DejaVu Sans', sans-serif";
export const BOLD = `bold ${FONT}`;
export const SMALL = "11px system-ui, 'DejaVu Sans', sans-serif";
export const SMALL_BOLD = `bold ${SMALL}`;
export const CODE = "bold 11px ui-monospace, 'DejaVu Sans Mono', monospace";
export const NUMBERS = "11px ui-monospace, 'DejaVu Sans Mono', monospace";

/** @returns {any} */
export function readPalette() {
  const style = getComputedStyle(document.documentElement);
  const colour = name => style.getPropertyValue(`--${name}`).trim();
  const palette = Object.fromEntries(NAMES.map(name => [name, colour(name)]));
  const actors = Array.from({ length: ACTOR_COLOURS }, (_, i) => colour(`actor-${i}`));
  return { ...palette, actor: number => actors[number % ACTOR_COLOURS] };
}

// The name of an actor's colour in the style sheet.
export function actorColour(number) {
  return `var(--actor-${number % ACTOR_COLOURS})`;
}
