use backend::cache::{self, Cache};
use tokio::sync::broadcast;
use yovanelum::{Recorder, name, show};

#[tokio::test]
async fn no_stale_entry_is_served() {
    let recorder = Recorder::for_test("no_stale_entry_is_served");
    let (stale, listener) = broadcast::channel(2);
    name!(recorder, &stale, "stale");
    show!(recorder, &stale, |key: &String| key.clone());
    let cache = Cache::default();
    for key in ["a", "b", "c", "d"] {
        cache.put(key, 1);
    }
    let following = tokio::spawn(cache.clone().follow(listener));
    cache::invalidate(&stale, &["a", "b", "c", "d"]);
    drop(stale);
    following.await.unwrap();
    assert_eq!(cache.get("d"), None);
    assert_eq!(cache.get("a"), None);
}

#[tokio::test]
async fn an_entry_is_gone_once_it_is_stale() {
    let recorder = Recorder::for_test("an_entry_is_gone_once_it_is_stale");
    let (stale, listener) = broadcast::channel(8);
    name!(recorder, &stale, "stale");
    name!(recorder, &listener, "cache");
    let cache = Cache::default();
    cache.put("a", 1);
    let _following = tokio::spawn(cache.clone().follow(listener));
    tokio::task::yield_now().await;
    cache::invalidate(&stale, &["a"]);
    assert_eq!(cache.get("a"), None);
}
