use std::sync::mpsc;

use backend::chat::Room;
use yovanelum::Recorder;

/// Talks in a room of this capacity, and then has one hear all.
async fn check_room(test: &str, capacity: usize, messages: usize) {
    let _recorder = Recorder::for_test(test);
    let room = Room::new(capacity);
    let mut bob = room.join("bob");
    for number in 1..=messages {
        room.say("alice", &format!("message {number}"));
    }
    for number in 1..=messages {
        let heard = bob.hear().await.expect("bob hears all");
        assert_eq!(heard.text, format!("message {number}"));
    }
}

#[tokio::test]
async fn a_small_room() {
    check_room("a_small_room", 2, 3).await;
}

#[tokio::test]
async fn a_large_room() {
    check_room("a_large_room", 16, 21).await;
}

#[tokio::test]
async fn two_members_hear_the_greeting() {
    let _recorder = Recorder::for_test("two_members_hear_the_greeting");
    let room = Room::new(8);
    let bob = room.join("bob");
    let _ = room.join("carol");
    assert_eq!(room.say("alice", "hello"), 2);
    assert!(!bob.is_up_to_date());
}

#[tokio::test]
async fn the_room_stays_open() {
    let _recorder = Recorder::for_test("the_room_stays_open");
    let room = Room::new(8);
    let bob = tokio::spawn(room.join("bob").hear_and_leave());
    room.say("alice", "hello");
    assert_eq!(bob.await.unwrap(), "hello");
    room.try_say("alice", "are you there?").unwrap();
}

#[tokio::test]
async fn a_member_catches_up() {
    let _recorder = Recorder::for_test("a_member_catches_up");
    let room = Room::new(8);
    let mut bob = room.join("bob");
    for text in ["hello", "bob", "bye"] {
        room.say("alice", text);
    }
    bob.catch_up();
    assert!(bob.is_up_to_date());
}

#[test]
fn the_log_has_no_gap() {
    let _recorder = Recorder::for_test("the_log_has_no_gap");
    let room = Room::new(4);
    let reader = room.join("log");
    let (open, opened) = mpsc::channel();
    let logger = reader.log(opened);
    for number in 1..=7 {
        room.say("alice", &number.to_string());
    }
    open.send(()).unwrap();
    drop(room);
    let lines = logger.join().unwrap();
    assert_eq!(lines.len(), 7);
}
