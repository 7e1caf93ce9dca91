"""The machines: how a call runs, the meanings of instructions, and processors to compare them with."""
