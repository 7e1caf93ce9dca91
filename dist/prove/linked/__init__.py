"""Assembly, objects, libraries and headers: what is proved, and how it is read."""
