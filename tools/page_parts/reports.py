"""What each part of tools/pages returns."""
import collections

# What it looked at, in words; what it makes, as {file: content}; and its faults, a line for each.
Report = collections.namedtuple("Report", "count made faults")
