"""Batches of logs: which logs there are, what is kept of their runs, and what is told of them."""
