"""Runs the user's own rustc and Cargo, and reads what they write."""
