"""The parts of tests/terminal: how runs end, what becomes of streams and signals, and how words are read."""
