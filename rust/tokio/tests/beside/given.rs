//! The macros that name channels, over tokio's own: what is tokio's is left alone.

use yovanelum::Recorder;

#[tokio::test]
async fn what_is_tokio_s_is_left_alone() {
    let recorder = Recorder::for_test("what_is_tokio_s_is_left_alone");
    let (orders, mut audit) = tokio::sync::broadcast::channel(2);
    let (state, rx) = tokio::sync::watch::channel("open");
    yovanelum::name!(recorder, &orders, "orders");
    yovanelum::name!(recorder, &audit, "audit");
    yovanelum::name!(recorder, &state, "state");
    yovanelum::show!(recorder, &orders, |id: &u32| format!("order {id}"));
    yovanelum::show!(recorder, &rx, |state: &&str| state.to_string());
    orders.send(71).unwrap();
    assert_eq!(audit.recv().await, Ok(71));
    state.send("closed").unwrap();
    assert!(recorder.journal().is_err(), "no channel is recorded");
}

#[test]
fn what_is_recorded_is_named() {
    let recorder = Recorder::for_test("what_is_recorded_is_named");
    let (orders, audit) = yovanelum::broadcast::channel(2);
    yovanelum::name!(recorder, &orders, "orders");
    yovanelum::name!(recorder, &audit, "audit");
    yovanelum::show!(recorder, &orders, |id: &u32| format!("order {id}"));
    orders.send(71).unwrap();
    let names = recorder.names();
    assert!(names.contains(r#""channels": {"0": "orders"}"#), "{names}");
    assert!(
        names.contains(r#""handles": {"0": {"1": "audit"}}"#),
        "{names}"
    );
    assert!(
        names.contains(r#""values": {"0": {"0": "order 71"}}"#),
        "{names}"
    );
}
