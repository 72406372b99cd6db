"""What the companions of hats share: words and messages, tables, positions, and the files of a catalogue."""
