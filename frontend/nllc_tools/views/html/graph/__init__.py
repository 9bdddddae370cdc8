"""The graphs of a page."""
