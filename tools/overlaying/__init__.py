"""What tools/lolamon-overlay is made of: it takes the verdicts of several runs into one picture."""
