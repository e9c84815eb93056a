// The opened text: a journal text or a script.

const JOURNAL_BEGINS = "ttd-journal";

export function isJournal(bytes) {
  return new TextDecoder().decode(bytes.subarray(0, JOURNAL_BEGINS.length)) === JOURNAL_BEGINS;
}
