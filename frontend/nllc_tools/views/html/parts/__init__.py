"""The parts of a page beside its graph."""
