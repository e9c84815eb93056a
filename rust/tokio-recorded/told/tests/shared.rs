//! A test with parameters: its cases give their recorders one name.

use tokio::sync::broadcast;
use yovanelum::Recorder;

fn check(count: u32) {
    let _recorder = Recorder::for_test("shared");
    let (orders, mut audit) = broadcast::channel(8);
    for id in 0..count {
        orders.send(id).unwrap();
    }
    assert_eq!(audit.len(), 8, "of {count}");
    audit.try_recv().unwrap();
}

#[test]
fn of_one() {
    check(1);
}

#[test]
fn of_two() {
    check(2);
}

#[test]
fn of_three() {
    check(3);
}
