"""What tests/saving needs: which bytes are a state text, which state a run has, and the tests themselves, each about one thing."""
