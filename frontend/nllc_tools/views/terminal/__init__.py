"""Lines of a terminal."""
