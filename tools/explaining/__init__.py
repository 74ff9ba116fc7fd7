"""Runs of lolamon as a person is told of them: what the end line means, places, messages, and where the program and its parts stand."""
