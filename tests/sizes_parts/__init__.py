"""What tests/sizes is made of."""
