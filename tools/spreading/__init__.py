"""What tools/lolamon-spread is made of: scripts that run the logs of a batch on several machines."""
