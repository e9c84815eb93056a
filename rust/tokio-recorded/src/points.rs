//! Where the command `cargo yovanelum` has made calls of tokio's own channels and locks steps of
//! runs that are explored, tokio calls a function at each of them, which is set here.

/// In the place of a module that tokio has only then.
mod yovanelum_points {
    #[allow(dead_code)]
    pub(super) fn set(_: fn(&'static str)) {}
}

/// Sets the function, if this tokio has such steps.
#[inline]
pub(crate) fn set() {
    // A name of the glob is taken before one of this file.
    #[allow(unused_imports)]
    use real_tokio::*;
    yovanelum_points::set(yovanelum::pass_point);
}
