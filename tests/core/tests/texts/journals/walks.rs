//! Walks over runs of numbers.

use crate::shared::{navigator_of, place_and_turns, step};
use proved::Global;
use proved::rw_journal::Run;
use proved::rw_law::Reversible;
use proved::rw_navigator::{Move, Navigator, OutOfRange};
use proved::rw_world::{Chan, Spec, World};
use support::fixtures::{Shows, broadcasts, watches};

/// What the broadcast on channel 0 has sent and retains, and the position of its receiver 1.
pub type Shown = Option<(u64, Option<u64>, Option<u64>, Option<u64>)>;

/// The place that a navigator reports after a move, and what its machine shows there.
pub type Visit = (Result<u64, OutOfRange>, Shown);

/// What is found on a walk: whether each channel shows its opening before it and after it, the navigator's place after the moves and
/// how many calls its machine had, and the visits.
pub type Walked = ([bool; 2], (u64, u64), [Visit; 4]);

/// Moves, their results, and where the navigator goes after them.
pub struct Walk {
    pub moves: &'static [Move],
    pub answers: &'static [Result<(), OutOfRange>],
    pub visits: [Move; 4],
}

/// No moves, and then a visit of the end and some of the start.
pub static ENDS: Walk = Walk {
    moves: &[],
    answers: &[],
    visits: [Move::End, Move::Start, Move::Start, Move::Start],
};

/// Whether each reader of a channel returns what the documentation says of its opening.
fn is_opening(spec: &Spec<u64>, channel: Option<&Chan<u64>>) -> bool {
    match (spec, channel) {
        (Spec::Broadcast(_), Some(Chan::Broadcast(machine))) => {
            machine.place() == broadcasts::opening(machine.capacity())
        }
        (Spec::Watch(init), Some(Chan::Watch(machine))) => {
            machine.place() == watches::opening(*init)
        }
        _ => false,
    }
}

/// What shows a world.
pub trait Showing {
    /// Returns what is shown of channel 0.
    fn shown(&self) -> Shown;

    /// Whether each channel shows its opening.
    fn is_opened(&self, specs: &[Spec<u64>]) -> bool;
}

impl Showing for World<u64> {
    fn shown(&self) -> Shown {
        match self.channel(0) {
            Some(Chan::Broadcast(machine)) => Some((
                machine.sent(),
                machine.window(0),
                machine.window(1),
                machine.position(1),
            )),
            _ => None,
        }
    }

    fn is_opened(&self, specs: &[Spec<u64>]) -> bool {
        let mut is_opened = self.len() == specs.len();
        for (i, spec) in specs.iter().enumerate() {
            is_opened = is_opened && is_opening(spec, self.channel(i));
        }
        is_opened
    }
}

/// Makes a move. Returns the place that the navigator reports, and what its machine shows there.
fn visit<R: Reversible + Showing>(navigator: &mut Navigator<R>, to: Move) -> Visit {
    let stands = step(navigator, to);
    (stands, navigator.state().shown())
}

/// Asserts that the moves of a walk have their results. Returns the place after them, and how many calls the machine had.
fn moved<R: Reversible>(navigator: &mut Navigator<R>, asked: &Walk) -> (u64, u64) {
    let answers = navigator.walk(Global, asked.moves).unwrap();
    assert_eq!(answers.as_slice(), asked.answers);
    drop(answers);
    place_and_turns(navigator)
}

/// Makes a walk with a navigator that is lent.
fn walked_with<R: Reversible + Showing>(
    navigator: &mut Navigator<R>,
    specs: &[Spec<u64>],
    asked: &Walk,
) -> Walked {
    let before = navigator.state().is_opened(specs);
    let end = moved(navigator, asked);
    let [first, second, third, last] = asked.visits;
    let visits = [
        visit(navigator, first),
        visit(navigator, second),
        visit(navigator, third),
        visit(navigator, last),
    ];
    let after = navigator.state().is_opened(specs);
    ([before, after], end, visits)
}

/// Makes a walk with a navigator.
fn walked_by<R: Reversible + Showing>(
    mut navigator: Navigator<R>,
    specs: &[Spec<u64>],
    asked: &Walk,
) -> Walked {
    walked_with(&mut navigator, specs, asked)
}

/// Makes a walk with a navigator of a run.
pub fn walked(run: &Run<u64>, asked: &Walk) -> Walked {
    let navigator = navigator_of(run);
    walked_by(navigator, run.specs(), asked)
}
