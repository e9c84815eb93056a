//! Methods that the tokio of a build may lack. Where a package stands for an older version, a test
//! that calls one isn't compiled, as over that version itself.

/// The methods that it lacks, with commas between them, such as `broadcast::Sender::new`. The
/// command `cargo yovanelum` sets the variable for rustc.
const LACKING: Option<&str> = option_env!("YOVANELUM_TOKIO_LACKS");

/// Whether the tokio of this build has a method.
pub(crate) const fn is_there(method: &str) -> bool {
    match LACKING {
        Some(lacking) => !has_item(lacking.as_bytes(), method.as_bytes()),
        None => true,
    }
}

/// Whether a list with commas has this item.
const fn has_item(list: &[u8], item: &[u8]) -> bool {
    let (mut at, mut same, mut is_same) = (0, 0, true);
    while at < list.len() {
        if list[at] == b',' {
            if is_same && same == item.len() {
                return true;
            }
            (same, is_same) = (0, true);
        } else {
            is_same = is_same && same < item.len() && list[at] == item[same];
            same += 1;
        }
        at += 1;
    }
    is_same && same == item.len()
}

/// Stops the compiler where a method is called that the tokio of this build lacks.
macro_rules! only_if_tokio_has {
    ($method:literal) => {
        const {
            assert!(
                crate::channels::of_version::is_there($method),
                concat!("the tokio of Cargo.lock has no `", $method, "`")
            )
        }
    };
}

pub(crate) use only_if_tokio_has;

#[cfg(test)]
mod tests {
    use super::*;

    #[test]
    fn a_method_is_found_in_a_list_as_a_whole() {
        let list = b"broadcast::Sender::new,watch::Sender::same_channel,watch::Receiver::wait_for";
        for item in [
            "broadcast::Sender::new",
            "watch::Sender::same_channel",
            "watch::Receiver::wait_for",
        ] {
            assert!(has_item(list, item.as_bytes()), "{item}");
        }
        for other in [
            "watch::Sender::new",
            "Sender::new",
            "broadcast::Sender::ne",
            "broadcast::Sender::newer",
            "watch::Receiver::wait_fo",
            "",
        ] {
            assert!(!has_item(list, other.as_bytes()), "{other}");
        }
        assert!(!has_item(b"", b"watch::Sender::new"));
        assert!(is_there("watch::Sender::new"));
    }
}
