"""What tests/editors is made of."""
