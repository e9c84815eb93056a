//! Maps in the order of insertion, beside a list of pairs.

use crate::ends::End::Process;
use crate::ends::ends;
use crate::random::Random;
use crate::refusing::{Refusal, refusing};
use yovanelum_ttd::shim::Vec;
use yovanelum_ttd::shim::alloc::Global;
use yovanelum_ttd::shim::indexmap::IndexMap;

fn key(name: &str) -> Vec<u8> {
    Vec::from_slice(Global, name.as_bytes()).unwrap()
}

#[test]
fn a_map_numbers_its_keys_in_their_order() {
    let mut random = Random::new(3);
    let mut map = IndexMap::new(Global);
    let mut model: std::vec::Vec<(String, usize)> = std::vec::Vec::new();
    for n in 0..3_000 {
        let name = format!("name{}", random.below(400));
        let at = model.iter().position(|(known, _)| *known == name);
        assert_eq!(map.get_index_of(name.as_bytes()), at);
        assert_eq!(map.contains_key(name.as_bytes()), at.is_some());
        let old = map.insert(key(&name), n).unwrap();
        match at {
            Some(at) => assert_eq!(old, Some(std::mem::replace(&mut model[at].1, n))),
            None => {
                assert_eq!(old, None);
                model.push((name, n));
            }
        }
    }
    for (number, (name, value)) in model.iter().enumerate() {
        assert_eq!(map.get_index_of(name.as_bytes()), Some(number));
        assert_eq!(map[number], *value);
    }
}

#[test]
fn an_empty_map_has_no_key() {
    let map = IndexMap::<Vec<u8>, u8>::new(Global);
    assert_eq!(map.get_index_of(b""), None);
    assert!(!map.contains_key(b"a"));
}

/// A map has a table of its keys and a list of its entries. Neither can be refused memory.
#[test]
#[cfg_attr(target_family = "wasm", ignore = "WebAssembly has no processes")]
fn a_new_key_that_is_refused_memory_ends_the_process() {
    let key = key("a");
    let call = || IndexMap::new(Global).insert(key, 1);
    let found = ends(
        "maps::a_new_key_that_is_refused_memory_ends_the_process",
        call,
    );
    assert_eq!(found, [Process, Process]);
}

#[test]
fn a_key_that_is_there_needs_no_memory() {
    let mut map = IndexMap::new(Global);
    map.insert(key("a"), 1).unwrap();
    let again = key("a");
    let (old, refused) = refusing(Refusal::above(0), || map.insert(again, 2));
    assert_eq!((old.unwrap(), refused, map[0]), (Some(1), 0, 2));
}
