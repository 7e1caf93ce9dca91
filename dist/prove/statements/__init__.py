"""What a statement of a call is, how it is proved, and what the statements for all calls share."""
