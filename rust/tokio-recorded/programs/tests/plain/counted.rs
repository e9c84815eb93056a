//! What a session says of the orders that it tried is compared with a count of all that there are:
//! by a model of two tasks, and of the test's body that waits for both.

use std::collections::BTreeMap;
use tokio::task::{spawn, yield_now};

/// How many polls both tasks have, by the variable.
fn polls() -> [usize; 2] {
    let text = std::env::var("POLLS").unwrap_or("2,2".to_string());
    let numbers: Vec<usize> = text.split(',').map(|it| it.parse().unwrap()).collect();
    numbers.try_into().unwrap()
}

#[tokio::test]
#[ignore = "it is explored by another test"]
async fn two_tasks() {
    let task = |polls: usize| async move {
        for _ in 1..polls {
            yield_now().await;
        }
    };
    let tasks = polls().map(|polls| spawn(task(polls)));
    for task in tasks {
        task.await.unwrap();
    }
}

/// Who can be polled. The body is the one before both tasks.
#[derive(Clone, Copy, PartialEq, Eq)]
enum Who {
    Body,
    Task(usize),
}

/// How far a run is.
#[derive(Clone)]
struct Model {
    left: [usize; 2],
    /// For which task the body waits.
    waits_for: usize,
    is_body_ready: bool,
    last: Option<Who>,
    switches: usize,
}

impl Model {
    fn candidates(&self) -> Vec<Who> {
        let tasks = (0..2).filter(|task| self.left[*task] > 0).map(Who::Task);
        let body = self.is_body_ready.then_some(Who::Body);
        body.into_iter().chain(tasks).collect()
    }

    /// Adds all runs that go on from here, by how many switches they have.
    fn count(&self, counts: &mut BTreeMap<usize, u64>) {
        let candidates = self.candidates();
        for who in &candidates {
            let mut next = self.clone();
            let could_go_on = self.last.is_some_and(|last| candidates.contains(&last));
            next.switches += usize::from(could_go_on && self.last != Some(*who));
            next.last = Some(*who);
            match who {
                Who::Body => {
                    next.is_body_ready = false;
                    while next.waits_for < 2 && next.left[next.waits_for] == 0 {
                        next.waits_for += 1;
                    }
                    if next.waits_for == 2 {
                        *counts.entry(next.switches).or_default() += 1;
                        continue;
                    }
                }
                Who::Task(task) => {
                    next.left[*task] -= 1;
                    next.is_body_ready |= next.left[*task] == 0 && next.waits_for == *task;
                }
            }
            next.count(counts);
        }
    }
}

/// How many orders two tasks with so many polls have, by how many switches.
pub fn all_orders(polls: [usize; 2]) -> BTreeMap<usize, u64> {
    // The body's first poll is alone, and it then waits for the first task.
    let begin = Model {
        left: polls,
        waits_for: 0,
        is_body_ready: false,
        last: Some(Who::Body),
        switches: 0,
    };
    let mut counts = BTreeMap::new();
    begin.count(&mut counts);
    counts
}

#[test]
fn the_model_counts_what_can_be_counted_by_hand() {
    // The first task, the body, the second one, the body; or the second, the first and the body;
    // or the first, the second, and the body.
    assert_eq!(all_orders([1, 1]), BTreeMap::from([(0, 3)]));
}
