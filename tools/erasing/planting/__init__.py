"""Plants wrong erasures and additions in the Rust source. Each has to be refused: by restoring, by the judge, or at last by rustc."""
