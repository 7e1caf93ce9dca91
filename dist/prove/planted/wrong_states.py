"""Lists wrong guesses of states at joints (joints.py). The proof has to refuse each of them."""
from gcm_statements.whole_messages import ADDITIONAL
from loops.linear import unknown, with_numbers
from machines.regions import Window

# The build and the case with which they are tried.
BUILD, CASE = "x86_64/gcm", "every_open"


def longer(state):
    state.replace_numbers(lambda x: with_numbers(x, lambda number: number + 1))


def longer_data(state):
    state.facts |= {unknown(ADDITIONAL) - 48}


def later_step(state):
    state.steps_found += 1


def later_block(state):
    for region in state.regions.values():
        if isinstance(region, Window) and region.writable:
            region.origin = region.unit


def higher_stack(state):
    state.general[state.stack_pointer] = state.offset(state.general[state.stack_pointer], 16)


# (what is guessed wrongly, a function that does so in a state)
WRONG_STATES = [
    ("numbers that are one more", longer), ("at least 48 bytes of additional data", longer_data),
    ("a step of GHASH that wasn't found", later_step), ("a block of text that isn't done", later_block),
    ("a stack pointer that is 16 higher", higher_stack)]
