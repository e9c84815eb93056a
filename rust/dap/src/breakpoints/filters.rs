//! Exception breakpoints: where a loss begins, and where a receive returns `Lagged` or `Closed`.

use super::{Asked, Breakpoints};
use crate::arguments::Arguments;
use crate::recording::{Places, Recording};
use crate::{Answer, Refusal};
use serde_json::{Value, json};

/// A filter, as the client lists it.
pub(crate) struct Filter {
    id: &'static str,
    label: &'static str,
    description: &'static str,
    is_default: bool,
}

/// All filters.
pub(crate) const FILTERS: [Filter; 3] = [
    Filter {
        id: "lost",
        label: "A value is lost",
        description: "The send that overwrites the first value which a receiver had not read.",
        is_default: true,
    },
    Filter {
        id: "lagged",
        label: "A receiver lagged",
        description: "The call that returns `Lagged`.",
        is_default: true,
    },
    Filter {
        id: "closed",
        label: "A receiver finds its channel closed",
        description: "The call that returns that the channel is closed.",
        is_default: false,
    },
];

impl Filter {
    /// Returns it as the answer to `initialize` has it.
    pub(crate) fn listed(&self) -> Value {
        json!({
            "filter": self.id,
            "label": self.label,
            "description": self.description,
            "default": self.is_default,
            "supportsCondition": true,
            "conditionDescription": "An expression of names, such as audit.lag > 1",
        })
    }
}

impl Breakpoints {
    pub(crate) fn set_exceptions(
        &mut self,
        all: Arguments<'_>,
        recording: &mut Recording,
    ) -> Answer {
        let nothing = Value::Null;
        let plain = all.texts("filters")?.into_iter();
        let mut wanted: Vec<_> = plain
            .map(|id| Ok((id, Arguments::of(&nothing)?)))
            .collect::<Answer<_>>()?;
        for option in all.objects("filterOptions")? {
            wanted.push((option.need_text("filterId")?, option));
        }
        let mut asked = vec![];
        for (id, given) in wanted {
            asked.push(Asked {
                given,
                reason: "exception",
                hits: Ok(places_of(id, recording)?),
                told: json!({}),
            });
        }
        let set = ("exceptions".to_string(), "setExceptionBreakpoints");
        self.replace(set, all, asked, recording)
    }
}

fn places_of(filter: &str, recording: &Recording) -> Answer<Places> {
    match filter {
        "lost" => {
            let places = recording.losses.iter().map(|loss| loss.from);
            let mut places: Places = places.filter(|place| *place > recording.first()).collect();
            places.sort_unstable();
            places.dedup();
            Ok(places)
        }
        "lagged" | "closed" => Ok(
            recording.places_where(|_, entry| entry.call() != "drop" && entry.reply() == filter)
        ),
        other => Err(Refusal(format!("there is no filter `{other}`"))),
    }
}
