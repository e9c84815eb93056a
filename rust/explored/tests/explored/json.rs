//! Members of the JSON that says what was explored.

/// Returns what follows the first key of this name.
fn member<'a>(json: &'a str, key: &str) -> &'a str {
    let key = format!("\"{key}\": ");
    let (_, rest) = json
        .split_once(&key)
        .unwrap_or_else(|| panic!("no {key} in {json}"));
    rest
}

/// Returns a number.
pub fn number(json: &str, key: &str) -> u64 {
    let rest = member(json, key);
    let end = rest.find(|c: char| !c.is_ascii_digit()).unwrap();
    rest[..end].parse().unwrap()
}

/// Returns a text without escapes.
pub fn text(json: &str, key: &str) -> String {
    let rest = member(json, key).strip_prefix('"').unwrap();
    rest.split_once('"').unwrap().0.to_string()
}

/// Whether the failing run hangs.
pub fn hangs(json: &str) -> bool {
    json.contains("\"failure\": \"everybody waits forever\"")
}

/// Returns how many of ten tries brought the failure back by the journal, by the choices, and by
/// the order's name. Where the first five agree, there are no more.
pub fn of_ten(json: &str) -> [u64; 3] {
    let tries = member(json, "tries").strip_prefix('[').unwrap();
    let mut tries = tries.split([',', ']']);
    ["byJournal", "bySchedule", "byOrder"].map(|way| {
        let of: u64 = tries.next().unwrap().trim().parse().unwrap();
        number(json, way) * 10 / of.max(1)
    })
}

/// Returns the better one of journal and choices.
pub fn best_of_ten(json: &str) -> u64 {
    let [journal, schedule, _] = of_ten(json);
    journal.max(schedule)
}
