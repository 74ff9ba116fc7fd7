"""What tools/lolamon-batch is made of: it runs logs, and keeps what they come to."""
