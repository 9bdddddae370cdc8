"""What is wrong in a function, by what `nllc` prints, beside what rustc says of it."""
