"""What the tools find before a run, and what they foretell of it: each finding has a level, a place, and lines."""
