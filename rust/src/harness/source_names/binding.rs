//! To what name a source binds the sender and the receiver that a call creates: a small reader of
//! the statement around the call. It knows no types, and where it isn't sure, it names nothing.

/// The names of what a call creates.
#[derive(Clone, Debug, Default, PartialEq, Eq)]
pub(super) struct Bound {
    /// That of the sender, or of the one handle that is created.
    pub(super) first: Option<String>,
    /// That of the receiver, where both are created.
    pub(super) second: Option<String>,
}

/// The call that creates a pair.
const PAIR: &str = "channel";

/// The calls that create one handle.
const SINGLES: [&str; 4] = ["new", "subscribe", "resubscribe", "clone"];

/// Functions that wrap a handle, which is called by the name of the whole.
const WRAPPERS: [&str; 7] = [
    "Arc::new",
    "Rc::new",
    "Box::new",
    "Some",
    "Mutex::new",
    "RwLock::new",
    "RefCell::new",
];

/// The most bytes that a statement may have before the call.
const MOST_BEFORE: usize = 400;

/// Returns what the call at this line and column, which begin at 1, is bound to.
pub(super) fn bound(text: &str, line: u32, column: u32) -> Option<Bound> {
    let at = offset(text, line, column)?;
    let (name, arguments) = called(&text[at..])?;
    let is_pair = name == PAIR;
    if !is_pair && !SINGLES.contains(&name) {
        return None;
    }
    let open = at + arguments;
    let end = open + closing(&text[open..])?;
    let start = start_of_expression(text, at);
    let (part, after) = part_of(text[end..].trim_start(), is_pair)?;
    let (before, after) = unwrapped(text[..start].trim_end(), after)?;
    bound_by(before, after, part)
}

/// Which part of a pair is left: both, the sender or the receiver. One handle is as a sender.
#[derive(Clone, Copy, PartialEq, Eq)]
enum Part {
    Both,
    First,
    Second,
}

/// Returns which part the text behind a call takes, and what follows.
fn part_of(after: &str, is_pair: bool) -> Option<(Part, &str)> {
    if !is_pair {
        return Some((Part::First, after));
    }
    match (after.strip_prefix(".0"), after.strip_prefix(".1")) {
        (Some(rest), _) => Some((Part::First, rest.trim_start())),
        (_, Some(rest)) => Some((Part::Second, rest.trim_start())),
        _ => Some((Part::Both, after)),
    }
}

/// Returns what is before and after an expression, without the wrappers around it.
fn unwrapped<'a>(mut before: &'a str, mut after: &'a str) -> Option<(&'a str, &'a str)> {
    while let (Some(outer), Some(rest)) = (before.strip_suffix('('), after.strip_prefix(')')) {
        let start = start_of_expression(outer, outer.len());
        let path = &outer[start..];
        let is_it = |wrapper: &str| path == wrapper || path.ends_with(&format!("::{wrapper}"));
        if !WRAPPERS.iter().any(|wrapper| is_it(wrapper)) {
            return None;
        }
        (before, after) = (outer[..start].trim_end(), rest.trim_start());
    }
    Some((before, after))
}

/// Returns the names that a statement or a field gives an expression with this before and after it.
fn bound_by(before: &str, after: &str, part: Part) -> Option<Bound> {
    if let Some(field) = before.strip_suffix(':').filter(|it| !it.ends_with(':')) {
        let is_end = after.starts_with([',', '}']);
        let name = last_word(field)?;
        let of_field = field[..field.len() - name.len()].trim_end();
        return (is_end && of_field.ends_with(['{', ','])).then(|| one(name, part))?;
    }
    let target = before.strip_suffix('=')?;
    if !after.starts_with(';')
        || target.ends_with(['=', '<', '>', '!', '+', '-', '*', '/', '%', '&', '|', '^'])
    {
        return None;
    }
    let statement = statement_at_end(target)?;
    match statement.strip_prefix("let ") {
        Some(pattern) => by_pattern(without_type(pattern).trim(), part),
        None => one(last_of_path(statement)?, part),
    }
}

/// Returns the last statement of a text, whose comments of whole lines are left out. One with a
/// literal or another comment isn't read.
fn statement_at_end(text: &str) -> Option<&str> {
    let from = text.len().saturating_sub(MOST_BEFORE);
    let from = (from..=text.len()).find(|at| text.is_char_boundary(*at))?;
    let near = &text[from..];
    let start = near.rfind([';', '{', '}']).map(|at| at + 1)?;
    let mut statement = near[start..].trim();
    while statement.starts_with("//") {
        statement = statement.split_once('\n')?.1.trim_start();
    }
    (!statement.contains(['"', '\'', '#'])
        && !statement.contains("//")
        && !statement.contains("/*"))
    .then_some(statement)
}

/// Returns a pattern without the type behind it.
fn without_type(pattern: &str) -> &str {
    let mut depth = 0;
    let colon = pattern.char_indices().find(|(at, c)| {
        depth += i32::from(*c == '(') - i32::from(*c == ')');
        *c == ':' && depth == 0 && !pattern[at + 1..].starts_with(':')
    });
    colon.map_or(pattern, |(at, _)| &pattern[..at])
}

fn by_pattern(pattern: &str, part: Part) -> Option<Bound> {
    let name = |pattern: &str| {
        let name = pattern.trim();
        let name = name.strip_prefix("mut ").unwrap_or(name).trim();
        is_name(name).then(|| name.to_string())
    };
    if part != Part::Both {
        return one(&name(pattern)?, part);
    }
    let inside = pattern.strip_prefix('(')?.strip_suffix(')')?;
    let mut parts = inside.trim_end().trim_end_matches(',').split(',');
    let (Some(first), Some(second), None) = (parts.next(), parts.next(), parts.next()) else {
        return None;
    };
    Some(Bound {
        first: name(first),
        second: name(second),
    })
}

/// Returns the names where one part of a call has this name.
fn one(name: &str, part: Part) -> Option<Bound> {
    let name = Some(name).filter(|name| is_name(name)).map(str::to_string);
    match part {
        Part::Both => None,
        Part::First => Some(Bound {
            first: name,
            second: None,
        }),
        Part::Second => Some(Bound {
            first: None,
            second: name,
        }),
    }
}

/// Whether a word is a name that says something. One that begins with `_` is of what isn't used.
fn is_name(word: &str) -> bool {
    word.starts_with(|c: char| c.is_alphabetic())
        && word.chars().all(is_of_word)
        && word.chars().any(char::is_lowercase)
}

fn is_of_word(c: char) -> bool {
    c.is_alphanumeric() || c == '_'
}

/// Returns the word at the end of a text.
fn last_word(text: &str) -> Option<&str> {
    let word = &text[text.trim_end_matches(is_of_word).len()..];
    (!word.is_empty()).then_some(word)
}

/// Returns the last name of a path such as `self.shutdown`.
fn last_of_path(path: &str) -> Option<&str> {
    let path = path.trim();
    let is_path = path
        .split('.')
        .all(|word| !word.is_empty() && word.chars().all(is_of_word));
    if is_path {
        path.rsplit('.').next()
    } else {
        None
    }
}

/// Returns the byte at a line and a column.
fn offset(text: &str, line: u32, column: u32) -> Option<usize> {
    let before = text
        .split_inclusive('\n')
        .take(line.checked_sub(1)? as usize);
    let start: usize = before.map(str::len).sum();
    let line = text[start..].lines().next()?;
    let (at, _) = line.char_indices().nth(column.checked_sub(1)? as usize)?;
    Some(start + at)
}

/// Returns the name of the function whose path is at the beginning, and where its arguments do.
fn called(text: &str) -> Option<(&str, usize)> {
    let mut at = 0;
    loop {
        let rest = &text[at..];
        let name = &rest[..rest.find(|c| !is_of_word(c))?];
        let mut after = at + name.len();
        if text[after..].starts_with("::<") {
            after += 2 + closing_angle(&text[after + 2..])?;
        }
        match &text[after..] {
            rest if rest.starts_with('(') && !name.is_empty() => return Some((name, after)),
            rest if rest.starts_with("::") => at = after + 2,
            _ => return None,
        }
    }
}

/// Returns where the list of types ends that begins here.
fn closing_angle(text: &str) -> Option<usize> {
    let mut depth = 0;
    let end = text.char_indices().find(|(_, c)| {
        depth += i32::from(*c == '<') - i32::from(*c == '>');
        depth == 0
    })?;
    (!text[..end.0].contains("->")).then_some(end.0 + 1)
}

/// Returns where what is in brackets ends. Literals and comments may have brackets of their own, so
/// with them it isn't read.
fn closing(text: &str) -> Option<usize> {
    let mut depth = 0;
    let mut before = ' ';
    for (at, c) in text.char_indices() {
        match c {
            '(' | '[' | '{' => depth += 1,
            ')' | ']' | '}' => depth -= 1,
            '\'' => return None,
            '"' => return closing_with_text(text),
            '/' if before == '/' => return None,
            _ => {}
        }
        if depth == 0 {
            return Some(at + 1);
        }
        before = c;
    }
    None
}

/// The same for one argument that is a text, as `("loading")` and `("a".to_string())`.
fn closing_with_text(text: &str) -> Option<usize> {
    let inside = text.strip_prefix("(\"")?;
    let end = inside.find(['"', '\\'])?;
    let behind = inside[end..].strip_prefix('"')?;
    let known = ["", ".to_string()", ".into()", ".to_owned()"];
    let found = known
        .iter()
        .find(|it| behind.starts_with(&format!("{it})")))?;
    Some(2 + end + 1 + found.len() + 1)
}

/// Returns where the expression begins whose last name begins here: before the names that lead to
/// it by `.` and `::`.
fn start_of_expression(text: &str, at: usize) -> usize {
    let mut start = at;
    loop {
        let before = text[..start].trim_end();
        let before = match (before.strip_suffix('.'), before.strip_suffix("::")) {
            (Some(before), _) => before.trim_end(),
            (_, Some(before)) => before,
            _ if start == at && last_word(&text[..at]).is_some() => &text[..at],
            _ => return start,
        };
        match last_word(before) {
            Some(word) => start = before.len() - word.len(),
            // Brackets before it, such as those of another call.
            None => return start,
        }
    }
}

#[cfg(test)]
mod tests {
    use super::*;

    /// What the call at the place that is marked by `@` is bound to, as `first/second`.
    fn names(marked: &str) -> String {
        let at = marked.find('@').unwrap();
        let text = marked.replace('@', "");
        let line = marked[..at].matches('\n').count() as u32 + 1;
        let column = marked[..at].rsplit('\n').next().unwrap().chars().count() as u32 + 1;
        match bound(&text, line, column) {
            None => "none".to_string(),
            Some(bound) => format!(
                "{}/{}",
                bound.first.unwrap_or_default(),
                bound.second.unwrap_or_default()
            ),
        }
    }

    #[test]
    fn what_a_statement_binds_has_its_names() {
        for (source, wanted) in [
            (
                "{ let (orders, mut audit) = @broadcast::channel(2);",
                "orders/audit",
            ),
            (
                "{ let (orders, audit) = tokio::sync::@broadcast::channel::<Vec<u32>>(2);",
                "orders/audit",
            ),
            (
                "{\n    let (orders, _): (Sender<u32>, _) =\n        @channel(8);",
                "orders/",
            ),
            (
                "{ let (_tx, rx) = @watch::channel(\"a(\".to_string());",
                "/rx",
            ),
            (
                "{ let state = @watch::channel(State { at: 1 }).0;",
                "state/",
            ),
            ("{ let mut seen = @watch::channel(0).1;", "/seen"),
            ("{ let bus = Arc::new(@broadcast::Sender::new(16));", "bus/"),
            ("{ let mut rx = tx.@subscribe();", "rx/"),
            (
                "; // The second.\n let late: Receiver<u32> = self.hub.orders.@subscribe();",
                "late/",
            ),
            ("{ self.shutdown = @watch::channel(false).0;", "shutdown/"),
            ("Hub { bus: @broadcast::Sender::new(4), n: 1 }", "bus/"),
            (
                "Hub {\n    n: 1,\n    bus: Some(@broadcast::channel(4).0),\n}",
                "bus/",
            ),
        ] {
            assert_eq!(names(source), wanted, "{source}");
        }
    }

    #[test]
    fn where_no_name_is_sure_there_is_none() {
        for source in [
            "{ let pair = @broadcast::channel(2);",
            "{ run(@broadcast::channel(2));",
            "{ let hub = Hub::new(@broadcast::channel(2).0);",
            "{ let n = @broadcast::channel::<u32>(2).0.len();",
            "{ let n = tx.@subscribe().len();",
            "{ let rx = wait(tx.@subscribe()).await;",
            "{ let x = if late { @broadcast::channel(2) } else { other };",
            "{ let rx = match 1 { _ => tx.@subscribe() };",
            "{ let make = || @broadcast::channel(2);",
            "{ let [a, b] = [1, 2].map(|_| @broadcast::channel(2).0);",
            "{ let (a, b, c) = @channel(2);",
            "{ let ((a, b), c) = (@channel(2), 1);",
            "{ @broadcast::channel(2);",
            "fn f() -> Sender<u32> {\n    @broadcast::Sender::new(2)\n}",
            "{ total += @channel(2).0;",
            "{ let a = b == tx.@subscribe();",
            "{ let CONST = @broadcast::Sender::new(2);",
            "call(a, rx: @broadcast::channel(2).0)",
            "{ let text = \"let a = \"; f(@channel(2).0);",
            "{ let a = @other(2).0;",
            "{ let a = /* why */ @channel(2).0; let",
        ] {
            let named = names(source);
            assert!(named == "none" || named == "/", "{source}: {named}");
        }
    }
}
