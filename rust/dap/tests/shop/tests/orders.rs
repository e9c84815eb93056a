use std::thread;
use yovanelum::{Recorder, broadcast};

#[test]
fn no_order_is_missing() {
    let recorder = Recorder::for_test("no_order_is_missing");
    let (orders, mut audit) = broadcast::channel(2);
    recorder.name(&orders, "orders").name(&audit, "audit");
    recorder.show(&orders, |order| format!("order {order}"));
    shop::announce(&orders);
    let auditor = thread::Builder::new().name("auditor".into());
    let first = auditor.spawn(move || {
        let first = audit.try_recv();
        let second = audit.try_recv();
        (first, second)
    });
    assert_eq!(first.unwrap().join().unwrap().0, Ok(71));
}
