"""Unknown numbers, and calls of every length."""
