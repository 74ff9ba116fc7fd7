"""What tools/lolamon-plot is made of: it takes the rows and the verdicts of a run into a picture."""
