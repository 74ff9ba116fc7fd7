"""What `lolamon analyse` tells of a specification: streams, windows, and the moments of its deadlines."""
