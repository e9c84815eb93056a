//! Values of JSON and their texts, which RFC 8259 says.

use crate::ends::End::{Error, Process};
use crate::ends::ends;
use crate::refusing::{Refusal, refusing};
use yovanelum_ttd::shim::Vec;
use yovanelum_ttd::shim::alloc::{AllocError, Global};
use yovanelum_ttd::shim::serde_json::{Map, Value, json, put};

/// Returns the text of a value.
fn text(value: &Value) -> String {
    let text = value.try_to_vec(Global).unwrap();
    String::from_utf8(text.to_vec()).unwrap()
}

fn string(text: &str) -> Value {
    Value::try_from_str(Global, text).unwrap()
}

fn null() -> Value {
    Value::from(None::<u64>)
}

fn array(items: impl IntoIterator<Item = Value>) -> Value {
    let mut list = Vec::new(Global);
    for item in items {
        list.push(item).unwrap();
    }
    Value::from(list)
}

#[test]
fn literals_and_numbers_are_as_the_standard_writes_them() {
    assert_eq!(text(&null()), "null");
    assert_eq!(text(&Value::from(true)), "true");
    assert_eq!(text(&Value::from(false)), "false");
    assert_eq!(text(&Value::from(0u32)), "0");
    assert_eq!(text(&Value::from(u64::MAX)), "18446744073709551615");
    assert_eq!(text(&Value::from(None::<u64>)), "null");
    assert_eq!(text(&Value::from(Some(17u64))), "17");
}

#[test]
fn texts_are_escaped_as_briefly_as_the_standard_allows() {
    assert_eq!(text(&string("")), r#""""#);
    assert_eq!(text(&string("größer / 大")), r#""größer / 大""#);
    assert_eq!(text(&string("\"\\\u{8}\u{c}\n\r\t")), r#""\"\\\b\f\n\r\t""#);
    assert_eq!(
        text(&string("\0\u{1f} \u{7f}")),
        "\"\\u0000\\u001f \u{7f}\""
    );
}

#[test]
fn lists_and_objects_have_no_spaces() {
    assert_eq!(text(&array([])), "[]");
    assert_eq!(text(&array([1u64, 2].map(Value::from))), "[1,2]");
    assert_eq!(text(&Value::Object(Map::new(Global))), "{}");
    let inner = array([string("x"), array([])]);
    let outer = json!(in Global; {"a": inner, "b": None::<u64>}).unwrap();
    assert_eq!(text(&outer), r#"{"a":["x",[]],"b":null}"#);
}

#[test]
fn members_are_in_the_order_of_their_keys_and_the_last_value_stays() {
    let mut map = Map::new(Global);
    for (n, name) in ["sent", "made", "", "Made", "capacity", "made", "é", "z"]
        .iter()
        .enumerate()
    {
        put(&mut map, Global, name, Value::from(n as u64)).unwrap();
    }
    let wanted = r#"{"":2,"Made":3,"capacity":4,"made":5,"sent":0,"z":7,"é":6}"#;
    assert_eq!(text(&Value::Object(map)), wanted);
}

/// Makes an object, with a question mark in a value.
fn made(handle: Result<u32, AllocError>) -> Result<Value, AllocError> {
    json!(in Global; {"lag": 2u64, "handle": handle?, "kind": "watch", "seen": true})
}

#[test]
fn an_object_is_written_by_its_literal() {
    let wanted = r#"{"handle":1,"kind":"watch","lag":2,"seen":true}"#;
    assert_eq!(text(&made(Ok(1)).unwrap()), wanted);
    assert!(made(Err(AllocError)).is_err());
}

/// The first and the third request are for a key, and the fourth is for a text. A map can't be
/// refused its node.
#[test]
#[cfg_attr(target_family = "wasm", ignore = "WebAssembly has no processes")]
fn of_an_object_all_is_refused_but_its_node() {
    let call = || json!(in Global; {"handle": 1u64, "kind": "watch"});
    let found = ends("json::of_an_object_all_is_refused_but_its_node", call);
    assert_eq!(found, [Error, Process, Error, Error]);
}

#[test]
#[cfg_attr(target_family = "wasm", ignore = "WebAssembly has no processes")]
fn a_text_is_refused() {
    let call = || Value::try_from_str(Global, "x");
    assert_eq!(ends("json::a_text_is_refused", call), [Error]);
}

#[test]
fn what_is_written_of_a_value_is_refused() {
    let value = made(Ok(1)).unwrap();
    let (result, refused) = refusing(Refusal::after(0), || value.try_to_vec(Global));
    assert_eq!((result.map(drop), refused > 0), (Err(AllocError), true));
    for allowed in 0.. {
        let (result, refused) = refusing(Refusal::only(allowed), || value.try_to_vec(Global));
        assert_eq!(result.is_err(), refused == 1, "request {allowed}");
        if refused == 0 {
            break;
        }
    }
}

#[test]
fn a_list_becomes_a_value_without_memory() {
    let mut items = Vec::new(Global);
    for n in 0..1_000u64 {
        items.push(Value::from(n)).unwrap();
    }
    let (value, refused) = refusing(Refusal::after(0), || Value::from(items));
    assert_eq!((refused, text(&value).len()), (0, 3_891));
}

#[test]
fn an_object_whose_member_is_refused_stays() {
    let mut map = Map::new(Global);
    put(&mut map, Global, "b", Value::from(1u64)).unwrap();
    let (result, refused) = refusing(Refusal::only(0), || put(&mut map, Global, "a", null()));
    assert_eq!((result, refused), (Err(AllocError), 1));
    assert_eq!(text(&Value::Object(map)), r#"{"b":1}"#);
}
