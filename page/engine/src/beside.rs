//! Two runs of one test, drawn beside each other: how their channels and calls are aligned, and the
//! first difference in words.

use crate::part::{NONE, Part, word};
use yovanelum_reader::account::against::{Against, DiffersBy, Listener};
use yovanelum_record::journal::Run;
use yovanelum_record::sidecar::Sidecar;

/// The calls of the run here by their places: their partners there, or 0, and by what each differs,
/// or 0; the channels there by their numbers: which each is here, or `NONE`; and what the run there
/// is called here.
pub(crate) struct Beside {
    partners: Vec<u32>,
    kinds: Vec<u8>,
    channels: Vec<u32>,
    run: &'static str,
}

impl Beside {
    /// Aligns two runs. Returns the lines of the difference, what the run there is called here, the
    /// partners, the kinds, the places here of the partners of the calls there, or 0, and the
    /// channels.
    pub(crate) fn parts(here: (&Run, &Sidecar), there: (&Run, &Sidecar)) -> Vec<Part> {
        let len = here.0.len() as usize + 1;
        let mut it = Beside {
            partners: vec![0; len],
            kinds: vec![0; len],
            channels: vec![],
            run: "",
        };
        let against = Against::told(here, there, &mut it);
        let mut back = vec![0; there.0.len() as usize + 1];
        for (place, partner) in (0..).zip(&it.partners) {
            if *partner > 0 {
                back[*partner as usize] = place;
            }
        }
        let run = it.run.to_string();
        vec![
            against.lines.join("\n").into(),
            run.into(),
            it.partners.into(),
            it.kinds.into(),
            Part::Words(back),
            it.channels.into(),
        ]
    }
}

impl Listener for Beside {
    fn run(&mut self, called: &'static str) {
        self.run = called;
    }

    fn channel(&mut self, here: Option<u32>) {
        self.channels.push(here.unwrap_or(NONE));
    }

    fn call(&mut self, here: u64, there: Option<u64>, kind: Option<DiffersBy>) {
        self.partners[here as usize] = there.map_or(0, word);
        self.kinds[here as usize] = kind.map_or(0, number_of);
    }
}

/// The page only asks whether a call differs.
fn number_of(kind: DiffersBy) -> u8 {
    match kind {
        DiffersBy::Missing => 1,
        DiffersBy::Other => 2,
        DiffersBy::Order => 3,
        DiffersBy::Value => 4,
        DiffersBy::Reply => 5,
        DiffersBy::More => 6,
    }
}
