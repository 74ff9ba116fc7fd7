"""What the tests of tools have in common: calls, and spoilt sources."""
