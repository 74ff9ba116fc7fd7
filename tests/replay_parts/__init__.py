"""Texts of runs, how they are spoilt, and what a replay has to find of them by definition."""
