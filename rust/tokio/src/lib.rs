//! Nothing: the tests beside tokio stand in `tests/`.
