"""What every tool does in the same way: how it reads its words, speaks, fails and ends."""
