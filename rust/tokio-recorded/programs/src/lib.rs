//! Nothing: the programs stand in `tests/`.
