"""The faults that controls.py plants."""
