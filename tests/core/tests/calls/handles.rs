//! The life of a small table.
use proved::Global;
use proved::rw_handles::{Found, HandleFault, Kind, Slot, Table};

#[test]
fn a_short_life() {
    let mut table: Table<u64> = Table::new(Global).unwrap();
    table.ready(4).unwrap();
    let has_room = 4 <= table.room();
    let made = [table.make(Kind::Sender, 0), table.make(Kind::Receiver, 5)];
    let looks = [table.look(0, Kind::Receiver), table.look(2, Kind::Sender)];
    let found = (table.find(1, None), table.drop_one(1));
    let gone = (table.look(1, Kind::Receiver), table.get(1));
    table.undrop(1, Kind::Receiver, 5);
    let undropped = (table.get(1), table.kind(1), table.slots().len());
    table.set(1, 7);
    let values = [table.get(1), table.receiver(0), table.receiver(1)];
    table.unmake();
    let left = (table.made(), alive(&table));
    assert_eq!((has_room, made, left), (true, [0, 1], (1, [1, 0, 0])));
    let kept = (Kind::Receiver, 5);
    assert_eq!(found, (Found::Handle(kept.0, kept.1), kept));
    assert_eq!(undropped, (Some(5), Some(Kind::Receiver), 2));
    assert_eq!(values, [Some(7), None, Some(7)]);
    let faults = [HandleFault::WrongKind, HandleFault::Unknown].map(Err);
    assert_eq!((looks, gone), (faults, (Err(HandleFault::Gone), None)));
}

/// Returns how many senders, receivers and weak senders are alive.
fn alive(table: &Table<u64>) -> [u64; 3] {
    [
        table.alive(Kind::Sender),
        table.alive(Kind::Receiver),
        table.alive(Kind::Weak),
    ]
}

#[test]
fn a_weak_handle() {
    let mut table: Table<u64> = Table::of_two(Global, 0, 0).unwrap();
    table.ready(1).unwrap();
    let made = (table.make(Kind::Weak, 0), alive(&table));
    let looks = [
        table.look(2, Kind::Weak),
        table.look(2, Kind::Sender),
        table.look(0, Kind::Weak),
    ];
    let dropped = table.drop_one(2);
    let gone = (table.look(2, Kind::Weak), alive(&table));
    assert_eq!((made, dropped), ((2, [1, 1, 1]), (Kind::Weak, 0)));
    let refused = Err(HandleFault::WrongKind);
    assert_eq!(looks, [Ok(()), refused, refused]);
    assert_eq!(gone, (Err(HandleFault::Gone), [1, 1, 0]));
}

#[test]
fn the_first_two() {
    let table: Table<u64> = Table::of_two(Global, 3, 4).unwrap();
    let found = (table.made(), table.find(0, None), table.find(1, None));
    let sender = Found::Handle(Kind::Sender, 3);
    let receiver = Found::Handle(Kind::Receiver, 4);
    assert_eq!(found, (2, sender, receiver));
}

#[test]
fn room_for_many_handles() {
    for handles in [1_025, 65_536] {
        let mut table: Table<u64> = Table::new(Global).unwrap();
        table.ready(handles).unwrap();
        assert!(handles <= table.room());
    }
}

#[test]
fn new_numbers_for_the_live_ones() {
    let mut table: Table<u64> = Table::of_two(Global, 3, 4).unwrap();
    table.ready(3).unwrap();
    let made = [(Kind::Weak, 5), (Kind::Receiver, 6), (Kind::Sender, 7)];
    let numbers = made.map(|(kind, x)| table.make(kind, x));
    let dropped = [table.drop_one(0), table.drop_one(3)];
    let places = u64::from(table.made()) + table.room();
    let before = table.renumber(Global).unwrap();
    assert_eq!(
        (numbers, dropped),
        ([2, 3, 4], [(Kind::Sender, 3), (Kind::Receiver, 6)])
    );
    assert_eq!(&before[..], &[1, 2, 4]);
    let left = [(Kind::Receiver, 4), (Kind::Weak, 5), (Kind::Sender, 7)];
    assert_eq!(table.slots(), left.map(|(kind, x)| Slot::Live(kind, x)));
    assert_eq!(alive(&table), [1, 1, 1]);
    assert_eq!(u64::from(table.made()) + table.room(), places);
    assert_eq!(table.make(Kind::Receiver, 8), 3);
}
