"""Writes texts for `nllc`, and reads them and its reports."""
