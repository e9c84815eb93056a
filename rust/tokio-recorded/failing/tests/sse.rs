use backend::sse::Hub;
use tokio_stream::StreamExt;
use yovanelum::Recorder;

#[tokio::test]
async fn a_slow_browser_gets_every_frame() {
    let _recorder = Recorder::for_test("a_slow_browser_gets_every_frame");
    let hub = Hub::new(4);
    let mut browser = hub.connect();
    for line in ["one", "two", "three", "four", "five", "six"] {
        hub.push(line);
    }
    let mut frames = Vec::new();
    while frames.len() < 6 {
        let frame = browser.frame().await.expect("an open stream");
        frames.push(frame.expect("a whole frame"));
    }
}

#[tokio::test]
async fn the_first_count_is_of_the_first_visitor() {
    let _recorder = Recorder::for_test("the_first_count_is_of_the_first_visitor");
    let hub = Hub::new(4);
    let mut visitors = hub.visitors();
    let first = tokio::spawn(async move { visitors.next().await });
    tokio::task::yield_now().await;
    hub.visit();
    assert_eq!(first.await.unwrap(), Some(1));
}
