use std::sync::{Arc, Barrier};
use std::thread::{self, JoinHandle};
use yovanelum::{Recorder, broadcast};

/// How many orders each desk takes.
const ORDERS: u32 = 50;
/// After how many orders a desk waits for the other.
const TOGETHER: u32 = 5;

#[inline(never)]
fn publish(orders: &broadcast::Sender<u32>, id: u32) {
    orders.send(id).unwrap();
}

fn open(name: &str, first: u32, orders: broadcast::Sender<u32>, both: Arc<Barrier>) -> JoinHandle<()> {
    let desk = thread::Builder::new().name(name.into());
    let take = move || {
        for id in first..first + ORDERS {
            // The other desk takes as many orders meanwhile.
            if id % TOGETHER == 0 {
                both.wait();
            }
            publish(&orders, id);
        }
    };
    desk.spawn(take).unwrap()
}

#[test]
fn two_desks() {
    let recorder = Recorder::for_test("two_desks");
    let (orders, mut audit) = broadcast::channel(128);
    recorder.name(&orders, "orders").name(&audit, "audit");
    recorder.show(&orders, |id| format!("order {id}"));
    let both = Arc::new(Barrier::new(2));
    let left = open("left", 100, orders.clone(), both.clone());
    let right = open("right", 200, orders, both);
    left.join().unwrap();
    right.join().unwrap();
    for _ in 0..2 * ORDERS {
        audit.try_recv().unwrap();
    }
}
