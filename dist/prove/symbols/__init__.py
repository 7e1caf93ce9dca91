"""Symbolic bits, and the operations on them."""
