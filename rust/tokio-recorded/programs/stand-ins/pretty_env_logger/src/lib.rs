//! A logger that hyper's tests start. This one logs nothing.

pub fn try_init() -> Result<(), std::convert::Infallible> {
    Ok(())
}
