"""What tools/lolamon-doctor is made of: it tells what is wrong in a specification's sources before a run."""
