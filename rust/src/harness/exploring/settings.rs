//! The variables that say how a test is explored.

use crate::harness::automatic::is_under_command;
use crate::schedule::explore::{Order, POINTS, condition, has_points, is_time_offered};
use std::env;
use std::path::PathBuf;
use std::thread;
use std::time::Duration;
use yovanelum_record::conditions::NamedCondition;

/// The variable that says how many runs are made.
pub(in crate::harness) const RUNS: &str = "YOVANELUM_EXPLORE";
const FROM: &str = "YOVANELUM_EXPLORE_FROM";
const SECONDS: &str = "YOVANELUM_EXPLORE_SECONDS";
const JOBS: &str = "YOVANELUM_EXPLORE_JOBS";
const OUT: &str = "YOVANELUM_EXPLORE_OUT";

/// How a test is explored.
#[derive(Debug)]
pub(super) struct Settings {
    pub(super) runs: u64,
    pub(super) from: From,
    pub(super) seconds: Option<Duration>,
    /// How many processes run beside each other.
    pub(super) jobs: usize,
    /// The file for what was done, as JSON.
    pub(super) out: Option<PathBuf>,
    /// What a run is looked for that meets it.
    pub(super) condition: Option<NamedCondition>,
}

/// Where to begin.
#[derive(Debug, PartialEq)]
pub(super) enum From {
    /// With the search.
    Start,
    /// With this seed. There is no search.
    Seed(u64),
    /// With this order.
    Order(Order),
}

impl Settings {
    /// Returns what the variables say, or `None` if nothing is to be explored.
    ///
    /// # Panics
    ///
    /// Panics if one isn't what it is to be.
    pub(super) fn of_variables() -> Option<Settings> {
        let runs = number(RUNS)?;
        is_time_offered();
        assert!(
            !has_points() || is_under_command(),
            "yovanelum: {POINTS} needs the command `cargo yovanelum explore`"
        );
        let processors = thread::available_parallelism().map_or(1, usize::from);
        Some(Settings {
            runs,
            from: text(FROM).map_or(From::Start, |text| from(&text)),
            seconds: number(SECONDS).map(Duration::from_secs),
            jobs: number(JOBS).map_or((processors / 2).max(1), |jobs| jobs.max(1) as usize),
            out: env::var_os(OUT).map(PathBuf::from),
            condition: condition(),
        })
    }
}

fn text(variable: &str) -> Option<String> {
    env::var(variable).ok().filter(|text| !text.is_empty())
}

fn number(variable: &str) -> Option<u64> {
    let text = text(variable)?;
    let number = text.parse();
    Some(number.unwrap_or_else(|_| panic!("yovanelum: {variable} is `{text}`, and no number")))
}

fn from(text: &str) -> From {
    match (text.parse(), Order::read(text)) {
        (Ok(0), _) => From::Start,
        (Ok(seed), _) => From::Seed(seed),
        (Err(_), Some(order)) => From::Order(order),
        (Err(_), None) => {
            panic!("yovanelum: {FROM} is `{text}`, and neither a number nor an order")
        }
    }
}

#[cfg(test)]
mod tests {
    use super::*;

    #[test]
    fn it_begins_with_the_search_a_seed_or_an_order() {
        assert_eq!(from("0"), From::Start);
        assert_eq!(from("1000"), From::Seed(1000));
        let order = Order::read("ts12.1").unwrap();
        assert_eq!(from("ts12.1"), From::Order(order));
    }

    #[test]
    #[should_panic(expected = "YOVANELUM_EXPLORE_FROM is `z4`, and neither a number nor an order")]
    fn another_text_is_refused() {
        from("z4");
    }
}
