//! A program without a runtime, which fails.

use tokio::sync::broadcast;
use yovanelum::Recorder;

fn main() {
    let _recorder = Recorder::for_test("till");
    let (orders, mut audit) = broadcast::channel(2);
    for id in [71, 72, 73] {
        orders.send(id).unwrap();
    }
    assert_eq!(audit.try_recv(), Ok(71));
}
