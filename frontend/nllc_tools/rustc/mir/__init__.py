"""Reads rustc's MIR."""
