// Text from outside, such as names, values and lines of files, as text: characters that hide, or that turn others round, are written out, and the end
// of a line is `↵`.

// Controls, format characters (each bidi control is one), ends of lines, halves of pairs, and what browsers draw nothing for. What joins an
// emoji, or chooses how one is drawn, stays.
const HIDDEN = new RegExp(
  "(?!(?<=\\p{Extended_Pictographic}\\p{Emoji_Modifier}?\\uFE0F?)(?:\\uFE0F|\\u200D(?=\\p{Extended_Pictographic})))" +
  "[\\p{Cc}\\p{Cf}\\p{Cs}\\p{Zl}\\p{Zp}\\p{Default_Ignorable_Code_Point}]", "gu");

// Letters that are written from right to left.
export const RIGHT_TO_LEFT = /[\u0590-\u08FF\uFB1D-\uFDFF\uFE70-\uFEFF\u{10800}-\u{10FFF}\u{1E800}-\u{1EFFF}]/u;

function writtenOut(character) {
  return `⟨U+${character.codePointAt(0).toString(16).toUpperCase().padStart(4, "0")}⟩`;
}

// The end of a line with the indentation after it, as texts have them that Rust's `{:#?}` writes.
const LINE_ENDS = /\r?\n[ \t]*/g;

export function visible(text) {
  return text.replace(LINE_ENDS, "↵ ").replace(HIDDEN, writtenOut);
}

// The same with its lines below each other, for a place that has room for them.
export function visibleLines(text) {
  return text.split(/\r?\n/).map(line => line.replace(HIDDEN, writtenOut)).join("\n");
}

// A visible text, for a place that has no element of its own: letters from right to left don't change the direction of the text around them.
export function isolated(text) {
  return RIGHT_TO_LEFT.test(text) ? `\u2068${text}\u2069` : text;
}
