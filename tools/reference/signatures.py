"""Signatures: bits and a phase, which say what words were written under a lock. The protocol's have 256 bits and two hashes of a word."""

from .isa import MASK


class Size:
    """How many bits a signature has, a power of two, and how many hashes a word has in it: another size isn't the protocol's."""

    bits, hashes = 256, 2


def hashes(word):
    """The bits of a word: of its number, and with two hashes of the first bits of a product too."""
    first = 1 << word % Size.bits
    return first if Size.hashes == 1 else first | 1 << ((word * 2654435769 & MASK) * Size.bits >> 32)


def inserted(signature, word, phase):
    bits, tag = signature
    return (bits if tag == phase else 0) | hashes(word), phase


def may_hold(signature, word, phase):
    return signature[1] == phase and signature[0] & hashes(word) == hashes(word)


def joined(a, b):
    if a[1] == b[1]:
        return a[0] | b[0], a[1]
    return a if a[1] > b[1] else b
