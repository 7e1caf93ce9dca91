"""Tracks how many bytes of a message came before a call of GCM: a number, or 16 n + r for every n."""
from collections import namedtuple

from gcm_statements.gcm_header import ADDITIONAL, MOST, MOST_ADDITIONAL
from loops.linear import WORD, unknown
from statements.standards import number

# The numbers of a message in pieces: how many bytes of additional data and of text came, how many were decrypted, and its phase.
ADDITIONAL_DATA, TEXT = "additional data", "text"  # what is counted
Counts = namedtuple("Counts", "additional text decrypted phase")


class Came(namedtuple("Came", "words number rest facts most", defaults=[None])):
    """Says how many bytes came before a call: 16 n + `rest` for every n, or any number if `rest` is None. It has the words of that number,
    the number, and facts of these. If it is more than the standard allows, `most` is what the standard allows."""

    def __mod__(self, k):
        return self.rest % k


def any_came(keyed, name, most, rest):
    """Makes a number of bytes that came before, `most` at most: 16 n + `rest` for every n, or any number if `rest` is None."""
    step, first = (1, 0) if rest is None else (16, rest)
    counted, high = unknown(("bytes of " if step == 1 else "blocks of ") + name), unknown("higher word of " + name)
    base = keyed.highest + 1
    low, sizes = counted * step + first, keyed.domain.sizes
    sizes[counted] = (min(most, keyed.highest) // step).bit_length()
    if most < base:
        return Came([low], low, rest, {counted, most - low})
    sizes[high] = (most // base).bit_length()
    return Came([low, high], low + high * base, rest, {counted, keyed.highest - low, high, most - low - high * base})


def came_too_long(keyed, name, most, rest):
    """Makes a number of bytes that is more than `most`. No call leaves it in a message, but a struct may have it."""
    came = any_came(keyed, "too much " + name, WORD, rest)
    return came._replace(facts=came.facts | {came.number - most - 1}, most=most)


def came_in(keyed, phase, additional, text, too_long=()):
    """Makes the numbers of bytes of additional data and of text that came before: 16 k + `additional` and 16 m + `text`, for every k and m.
    One that is None may be any. In the first phase no text came. Numbers that `too_long` names are more than the standard allows."""
    def came(name, most, rest):
        return (came_too_long if name in too_long else any_came)(keyed, name, most, rest)
    return came(ADDITIONAL_DATA, MOST_ADDITIONAL, additional), 0 if phase == ADDITIONAL else came(TEXT, MOST, text)


def with_more(keyed, m, n, count):
    """Gives the number of bytes that came, after `count` more."""
    if isinstance(n, int):
        return n + count
    low, *high = map(m.known, n.words)
    carries = bool(high) and not m.implied(keyed.highest - low - count)
    return n._replace(words=[low + count - carries * (keyed.highest + 1), *(word + carries for word in high)])


def bytes_of_counts(keyed, counts):
    """Gives the bytes of Counts in a message. Each is a number of 64 bits, which may be unknown."""
    words = lambda n: n.words if isinstance(n, Came) else [n]
    return [b for n in counts for b in (number(n, 8)[::-1] if isinstance(n, int) else keyed.words(words(n)))]


def length_in_bits(keyed, m, n):
    """Gives the bytes of a length in bits, the highest first. `n` is the length in bytes. One that is too long counts as the longest."""
    if not n or n.most:
        return number(8 * n.most if n else 0, 8)
    bits = [0, 0, 0] + [x for word in n.words for x in m.bits(m.known(word), keyed.address)]
    return [keyed.domain.pack(bits[k:k + 8]) for k in range(56, -8, -8)]
