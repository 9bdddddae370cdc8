"""What rustc 1.95 chooses: codes, places, names, and which constraint it blames."""
