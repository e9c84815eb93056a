use std::error::Error;

use backend::retry;
use tokio::sync::broadcast;
use tokio::sync::broadcast::error::TryRecvError;
use yovanelum::{Recorder, name};

#[tokio::test]
async fn a_session_is_there_after_three_attempts() -> Result<(), Box<dyn Error>> {
    let recorder = Recorder::for_test("a_session_is_there_after_three_attempts");
    let (connected, mut sessions) = broadcast::channel(4);
    name!(recorder, &sessions, "sessions");
    let _connection = retry::connect("secret", connected);
    let session = recorder.save_on_err(retry::session(&mut sessions, 3))?;
    assert_eq!(session, 1);
    Ok(())
}

#[tokio::test]
async fn a_session_comes_without_a_password() -> Result<(), Box<dyn Error>> {
    let recorder = Recorder::for_test("a_session_comes_without_a_password");
    let (connected, mut sessions) = broadcast::channel(4);
    let _connection = retry::connect("", connected);
    let session = retry::first_session(&mut sessions).await;
    assert_eq!(recorder.save_on_err(session)?, 1);
    Ok(())
}

#[test]
#[should_panic(expected = "Lagged(1)")]
fn a_seventh_value_is_one_too_many() {
    let recorder = Recorder::for_test("a_seventh_value_is_one_too_many");
    let (values, mut slow) = broadcast::channel(6);
    name!(recorder, &slow, "slow");
    for value in 1..=7 {
        values.send(value).unwrap();
    }
    let first: Result<u32, TryRecvError> = slow.try_recv();
    first.unwrap();
}
