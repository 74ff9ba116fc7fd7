"""What a run of lolamon writes, read again: verdict lines, trace lines and the end line, as docs/formats.md has them."""
