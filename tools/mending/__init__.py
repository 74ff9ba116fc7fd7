"""What tools/lolamon-mend is made of: it writes a source anew so that it can be read."""
