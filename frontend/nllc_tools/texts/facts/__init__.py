"""Facts texts: made of what rustc says of a function, written, and read."""
