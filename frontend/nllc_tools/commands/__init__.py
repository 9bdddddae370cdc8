"""The commands of nllc.sh: their words, and what they do."""
