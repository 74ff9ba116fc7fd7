"""What tools/lolamon-table is made of: it writes verdicts as tables, and compares two of them."""
