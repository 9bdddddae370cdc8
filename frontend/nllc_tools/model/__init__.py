"""A function: its points, regions, loans, moves, constraints and faults."""
