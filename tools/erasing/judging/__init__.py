"""The judge: it shows that the Rust source is the proved text without its contracts. It shares no code with the eraser."""
