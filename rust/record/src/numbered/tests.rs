//! A map is compared with one of std's after each of many calls.

use super::*;

/// Numbers that look random, each below 64.
fn numbers() -> impl Iterator<Item = u64> {
    let mut last: u32 = 7;
    (0..4000).map(move |_| {
        last = last.wrapping_mul(1_103_515_245).wrapping_add(12345);
        u64::from(last >> 16) % 64
    })
}

fn assert_same(here: &NumberMap<u64, usize>, there: &BTreeMap<u64, usize>) {
    assert_eq!(here.len(), there.len());
    assert!(here.iter().eq(there));
    assert!(here.iter().rev().eq(there.iter().rev()));
}

#[test]
fn a_map_is_as_one_of_std() {
    let (mut here, mut there) = (NumberMap::new(), BTreeMap::new());
    for (step, number) in numbers().enumerate() {
        match step % 5 {
            0 | 1 => assert_eq!(here.insert(number, step), there.insert(number, step)),
            2 => assert_eq!(here.remove(&number), there.remove(&number)),
            3 => {
                *here.get_or_insert_with(number, || 1) += step;
                *there.entry(number).or_insert(1) += step;
            }
            _ => assert_eq!(here.get(&number), there.get(&number)),
        }
        assert_same(&here, &there);
        let of_range = there.range(number..);
        assert!(here.range(number..).eq(of_range));
    }
    assert!(here.clone().into_iter().eq(there));
}

#[test]
fn what_is_retained_is_found() {
    let mut here: NumberMap<u64, usize> = numbers().zip(0..).collect();
    let mut there: BTreeMap<u64, usize> = numbers().zip(0..).collect();
    here.retain(|key, _| key % 3 > 0);
    there.retain(|key, _| key % 3 > 0);
    assert_same(&here, &there);
    for value in here.values_mut().zip(there.values_mut()) {
        assert_eq!(value.0, value.1);
        *value.0 += 1;
        *value.1 += 1;
    }
    assert_same(&here, &there);
    here.remove_first();
    there.pop_first();
    assert_same(&here, &there);
}

#[test]
fn maps_with_the_same_items_are_equal_in_each_order_of_insertion() {
    let one = NumberMap::from([(1_u32, "a"), (2, "b")]);
    let other = NumberMap::from([(2, "b"), (1, "a")]);
    assert_eq!(one, other);
    assert_ne!(one, NumberMap::from([(1, "a"), (2, "c")]));
}

#[test]
fn pairs_are_in_the_order_of_their_first_numbers() {
    let keys = [(1, 0), (0, u32::MAX), (0, 7)];
    let set: NumberSet<(u32, u32)> = keys.into_iter().collect();
    assert!(set.into_iter().eq([(0, 7), (0, u32::MAX), (1, 0)]));
}
