//! The page with a run inside. The page is one HTML file with an element for a run, as `page/open`
//! in the repository fills it too.

mod deflate;
#[cfg(test)]
mod inflate;

use std::io::BufRead;

/// The line of the page in which a run is put.
const SLOT: &[u8] = b"\n<script type=\"text/plain\" id=\"run\"></script>\n";

const SLOT_START: &[u8] = b"\n<script type=\"text/plain\" id=\"run\">\n";

const SLOT_END: &[u8] = b"</script>\n";

const JOURNAL_START: &[u8] = b"<script type=\"text/plain\" id=\"journal\">\n";

/// That of a journal that is packed: in base64, the bytes of zlib's form.
const PACKED_START: &[u8] = b"<script type=\"text/plain\" id=\"journal\" class=\"packed\">\n";

const PIECE_START: &[u8] = b"<script type=\"text/plain\" class=\"journal\">\n";

/// The same of names that are packed.
const NAMES_START: &[u8] = b"<script type=\"text/plain\" id=\"names\" class=\"packed\">\n";

const NAMES_PIECE_START: &[u8] = b"<script type=\"text/plain\" class=\"names\">\n";

/// How many bytes of a journal an element has. WebKit takes minutes to read all of a long one in
/// one element. Whole groups of base64 are in it.
const PIECE: usize = 1 << 20;

/// From which length of its journal on a run is packed. A shorter one can be searched in the file,
/// and costs nothing to write.
const LONG: usize = 1 << 20;

const DIGITS: &[u8; 64] = b"ABCDEFGHIJKLMNOPQRSTUVWXYZabcdefghijklmnopqrstuvwxyz0123456789+/";

/// Returns the page with a run inside: the name of the journal's file, its text, which was
/// accepted, and that of its names. Returns `None` if the page has no element for a run.
pub fn with_run(page: &[u8], file_name: &str, journal: &[u8], names: &[u8]) -> Option<Vec<u8>> {
    let at = slot_in(page)?;
    let mut out =
        Vec::with_capacity(page.len() + journal.len().min(2 * LONG) + 4 * names.len() / 3);
    out.extend_from_slice(&page[..at]);
    if journal.len() < LONG {
        push_plain(&mut out, [file_name.as_bytes(), names], journal);
    } else {
        let counts = format!("{} {}", calls_in(journal), journal.len());
        push_lines(&mut out, &[file_name.as_bytes(), counts.as_bytes()]);
        push_packed(&mut out, names, [NAMES_START, NAMES_PIECE_START]);
        push_packed(&mut out, journal, [PACKED_START, PIECE_START]);
    }
    out.extend_from_slice(&page[at + SLOT.len()..]);
    Some(out)
}

/// Returns where the slot is. The ends of lines are found by std, which is optimized in each build:
/// a test that fails has this in its own process where the reader is linked.
fn slot_in(page: &[u8]) -> Option<usize> {
    let mut rest = page;
    loop {
        rest.skip_until(b'\n').ok().filter(|skipped| *skipped > 0)?;
        if rest.starts_with(&SLOT[1..]) {
            return Some(page.len() - rest.len() - 1);
        }
    }
}

/// How many calls a journal text has: the lines that begin with a number. With that the page shows
/// the first of them before it has unpacked all.
fn calls_in(journal: &[u8]) -> usize {
    let lines = journal.split(|byte| *byte == b'\n');
    lines
        .filter(|line| line.first().is_some_and(u8::is_ascii_digit))
        .count()
}

/// Appends the element of a run with these lines, each in base64.
fn push_lines(out: &mut Vec<u8>, lines: &[&[u8]]) {
    out.extend_from_slice(SLOT_START);
    for line in lines {
        push_base64(out, line);
        out.push(b'\n');
    }
    out.extend_from_slice(SLOT_END);
}

/// Appends a run whose journal is put in as it is: an accepted one has lower-case words and numbers
/// alone.
fn push_plain(out: &mut Vec<u8>, lines: [&[u8]; 2], journal: &[u8]) {
    assert!(!journal.contains(&b'<'), "no journal was accepted");
    push_lines(out, &lines);
    push_pieces(out, journal, [JOURNAL_START, PIECE_START]);
}

/// Appends a text packed.
fn push_packed(out: &mut Vec<u8>, text: &[u8], starts: [&[u8]; 2]) {
    let packed = deflate::packed(text);
    let mut digits = Vec::with_capacity(packed.len() / 3 * 4 + 4);
    push_base64(&mut digits, &packed);
    push_pieces(out, &digits, starts);
}

/// Appends a text in elements of one piece each: the first begins as the first of these, and the
/// others as the second.
fn push_pieces(out: &mut Vec<u8>, text: &[u8], [first, further]: [&[u8]; 2]) {
    let mut start = first;
    for piece in text.chunks(PIECE) {
        out.extend_from_slice(start);
        out.extend_from_slice(piece);
        out.extend_from_slice(SLOT_END);
        start = further;
    }
}

/// Appends bytes in base64, so that nothing in them is markup.
fn push_base64(out: &mut Vec<u8>, bytes: &[u8]) {
    let groups = bytes.chunks_exact(3);
    let rest = groups.remainder();
    for group in groups {
        out.extend_from_slice(&digits_of([group[0], group[1], group[2]]));
    }
    if let [first, second @ ..] = rest {
        let digits = digits_of([*first, second.first().copied().unwrap_or(0), 0]);
        out.extend_from_slice(&digits[..=rest.len()]);
        out.resize(out.len() + 3 - rest.len(), b'=');
    }
}

fn digits_of([a, b, c]: [u8; 3]) -> [u8; 4] {
    let digit = |six: u8| DIGITS[usize::from(six & 63)];
    [
        digit(a >> 2),
        digit(a << 4 | b >> 4),
        digit(b << 2 | c >> 6),
        digit(c),
    ]
}

#[cfg(test)]
mod tests {
    use super::*;

    #[test]
    fn a_run_is_in_its_line_of_the_page_in_base64() {
        let page = b"<html>\n<script type=\"text/plain\" id=\"run\"></script>\n</html>\n";
        let wanted = "<html>\n<script type=\"text/plain\" id=\"run\">\nYS5qb3VybmFs\nZm9vYmE=\n</script>\n\
            <script type=\"text/plain\" id=\"journal\">\nfoob\n</script>\n</html>\n";
        let out = with_run(page, "a.journal", b"foob\n", b"fooba").unwrap();
        assert_eq!(String::from_utf8(out).unwrap(), wanted);
        assert_eq!(with_run(b"<html></html>\n", "a", b"", b""), None);
    }

    /// What zlib, gzip and browsers unpack is compared with the text by the tests of the page, and
    /// here by an unpacker that is written from RFC 1951.
    #[test]
    fn a_long_journal_is_packed_in_several_elements() {
        let page = b"<html>\n<script type=\"text/plain\" id=\"run\"></script>\n</html>\n";
        let line = |stamp: u64| {
            let value = stamp.wrapping_mul(0x9e37_79b9_7f4a_7c15);
            format!("{stamp} 0 0 send 0 {value} = sent 1\n")
        };
        let head = String::from("ttd-journal 2\nbroadcast 2\nsteps\n");
        let journal = (1..80_000).map(line).fold(head, |text, line| text + &line) + "end\n";
        let names = "names ".repeat(10);
        let out = with_run(page, "a.journal", journal.as_bytes(), names.as_bytes()).unwrap();
        let text = String::from_utf8(out).unwrap();
        let of = |starts: [&[u8]; 2]| {
            let starts = starts.map(|start| std::str::from_utf8(start).unwrap());
            let pieces = text.split("<script").map(|it| format!("<script{it}"));
            let pieces = pieces.filter_map(|it| {
                let begun = starts.iter().find_map(|start| it.strip_prefix(start));
                Some(begun?.split('<').next()?.to_string())
            });
            pieces.collect::<Vec<_>>()
        };
        let journals = of([PACKED_START, PIECE_START]);
        assert!(journals.len() > 1 && journals[0].len() == PIECE);
        assert_eq!(
            inflate::unpacked(&bytes_of(&journals.concat())),
            journal.as_bytes()
        );
        let parts = of([NAMES_START, NAMES_PIECE_START]);
        assert_eq!(
            inflate::unpacked(&bytes_of(&parts.concat())),
            names.as_bytes()
        );
        let lines = text.split("id=\"run\">\n").nth(1).unwrap();
        let mut lines = lines.split('\n').map(bytes_of);
        assert_eq!(lines.next().unwrap(), b"a.journal");
        let counts = format!("79999 {}", journal.len());
        assert_eq!(lines.next().unwrap(), counts.as_bytes());
    }

    /// Returns the bytes that are written in base64.
    fn bytes_of(text: &str) -> Vec<u8> {
        let digits = text.bytes().filter(|it| *it != b'=');
        let digits: Vec<_> = digits
            .map(|it| DIGITS.iter().position(|digit| *digit == it).unwrap() as u32)
            .collect();
        let groups = digits.chunks(4).flat_map(|group| {
            let bits = group.iter().fold(0, |bits, six| bits << 6 | six) << (6 * (4 - group.len()));
            bits.to_be_bytes()[1..group.len()].to_vec()
        });
        groups.collect()
    }
}
