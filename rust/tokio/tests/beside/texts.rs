//! What is printed of errors is what tokio prints.

/// The texts of the errors of both modules, `{}` and then `{:?}`.
macro_rules! errors {
    ($name:ident, $broadcast:path, $watch:path) => {
        fn $name() -> Vec<[String; 2]> {
            use $broadcast as broadcast;
            use $watch as watch;
            macro_rules! texts {
                ($error:expr) => {{
                    let error = $error;
                    [error.to_string(), format!("{error:?}")]
                }};
            }
            let (sender, receiver) = watch::channel(1);
            drop(sender);
            vec![
                texts!(broadcast::error::SendError(1)),
                texts!(broadcast::error::RecvError::Closed),
                texts!(broadcast::error::RecvError::Lagged(2)),
                texts!(broadcast::error::TryRecvError::Empty),
                texts!(broadcast::error::TryRecvError::Closed),
                texts!(broadcast::error::TryRecvError::Lagged(2)),
                texts!(receiver.has_changed().unwrap_err()),
                texts!(watch::error::SendError(1)),
            ]
        }
    };
}

errors!(of_tokio, tokio::sync::broadcast, tokio::sync::watch);
errors!(of_this, yovanelum::broadcast, yovanelum::watch);

/// A watch's `SendError` is that of tokio 1.53, which leaves the value out. tokio 1.24 prints it.
#[test]
fn of_errors() {
    let (mut this, mut tokio) = (of_this(), of_tokio());
    let [of_watch, of_older] = [&mut this, &mut tokio].map(|texts| texts.pop().unwrap());
    assert_eq!(this, tokio);
    assert_eq!(of_watch[0], of_older[0]);
    let debug = [&of_watch[1], &of_older[1]].map(String::as_str);
    assert_eq!(debug, ["SendError { .. }", "SendError(1)"]);
}
