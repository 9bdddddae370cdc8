"""What is wrong, in the words of the source."""
