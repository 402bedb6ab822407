#!/usr/bin/env python3
"""Texts on which a reader may take long or much memory, of up to four mebibytes each. `reader_texts.py FOLDER` writes a
file for each family, and prints its name and how many letters its relators and images have."""

import os
import sys

SIZE = 4 * 1024 * 1024
TWO = "generators x y\n"


def repeated(part, last="1", head=TWO + "fixed "):
    """One relator: as many copies of the part as fill the text, and a last factor."""
    return head + part * ((SIZE - len(head) - len(last) - 1) // len(part)) + last + "\n"


def chained(part, base="x^65536"):
    """One relator: a factor with as many copies of an exponent behind it as fill the text."""
    return TWO + "fixed " + base + part * ((SIZE - 64) // len(part)) + "\n"


def relators(count, relator):
    """So many lines of one relator each."""
    return TWO + f"fixed {relator}\n" * count


def nested(front, core, back, depth=64):
    """A word in so many brackets."""
    return front * depth + core + back * depth


def padded(text):
    """The text with comments behind it that fill it."""
    line = "# a comment\n"
    return text + line * ((SIZE - len(text)) // len(line))


def filled(relator, count):
    """So many relators, each with killed parts in front of it that fill the text."""
    part = "x^65536^0*"
    room = (SIZE - len(TWO)) // count - len(relator) - len("fixed \n")
    return relators(count, part * (room // len(part)) + relator)


def images():
    """Sixteen endomorphisms of 32 generators, with images of 8,192 letters behind killed parts."""
    names = [f"x{k}" for k in range(32)]
    killed = "(x0*x1^65535)^0*"
    room = SIZE // 512 - 40
    arrows = ", ".join(f"{name} -> {killed * (room // len(killed))}x1^8191*x0" for name in names)
    return "generators " + " ".join(names) + "\n" + f"endo {arrows}\n" * 16


def pending():
    """Products of many factors that wait in open brackets, and are killed when these are closed."""
    part = "x*" * 32000
    depth = min(63, SIZE // len(part) - 1)
    return TWO + "fixed " + ("(" + part) * depth + "x" + ")^0" * depth + "\n"


# each family with its letters
FAMILIES = {
    "killed_powers": (lambda: repeated("x^65536^0*"), 0),
    "killed_products": (lambda: repeated("(x*x^65535)^0*"), 0),
    "killed_commutators": (lambda: repeated("[x^16383,x]^0*"), 0),
    "killed_long_commutators": (lambda: repeated("[x^16384,y^16384]^0*"), 0),
    "killed_entries": (lambda: repeated("[x,y,x,y,x,y]^0*"), 0),
    "killed_in_brackets": (lambda: repeated(nested("(x*", "x^65472", ")^0", 63) + "*"), 0),
    "killed_pending": (pending, 0),
    "killed_conjugates": (lambda: repeated("x^y^2^y^-2^y^2^y^-2^y^2^y^2^0*"), 0),
    "signs": (lambda: chained("^-1"), 65536),
    "ones": (lambda: chained("^1"), 65536),
    "empty_conjugators": (lambda: chained("^(1)"), 65536),
    "signs_of_conjugates": (lambda: chained("^(1)^-1", "x^65534^y"), 65536),
    "conjugations": (lambda: padded(relators(40, "x" + "^y" * 32000)), 40 * 64001),
    "conjugations_in_brackets": (lambda: padded(relators(64, nested("(", "x^65000", ")^y"))), 64 * 65128),
    "signs_in_brackets": (lambda: padded(relators(64, nested("(x*", "x^65000", ")^-1"))), 64 * 65064),
    "long_commutators": (lambda: filled("[x^16384,y^16384]", 64), 64 * 65536),
    "equations": (lambda: filled("x^32768=y^32768", 64), 64 * 65536),
    "small_equations": (lambda: filled("x*y=y*x", 4096), 4096 * 4),
    "images": (images, 512 * 8192),
    "empty_factors": (lambda: repeated("1*"), 0),
    "empty_entries": (lambda: repeated("1,", "1]", TWO + "fixed ["), 0),
    "leading_zeros": (lambda: TWO + "fixed x^" + "0" * (SIZE - 32) + "2\n", 2),
    "many_zeros": (lambda: repeated("x^00000000*"), 0),
    "comments": (lambda: TWO + "# comment (((((((( of a line\n" * ((SIZE - 32) // 29), 0),
    "blank_lines": (lambda: TWO + "\n" * (SIZE - 16), 0),
    "letters": (lambda: relators(32, "*".join(["x"] * 65000)), 32 * 65000),
    "ordinary": (lambda: relators(4095, "x" + "*y*x" * 254), 4095 * 509),
}


def main():
    folder = sys.argv[1]
    for name, (text_of, letters) in FAMILIES.items():
        text = text_of()
        assert len(text) <= SIZE, name
        with open(os.path.join(folder, name), "w", encoding="ascii") as file:
            file.write(text)
        print(name, letters)


if __name__ == "__main__":
    main()
