"""What all layers share: how a command ends, its words and streams, files, processes, sentences."""
