#!/usr/bin/env python3
"""Writes a folder of cases for the program `worked_towers` in which every example is answered over full covers and over light ones.

    python3 bench/alike_cases.py FOLDER [TEXT PRIME CLASS]...
    crates/worked_towers/out/worked_towers FOLDER

The examples are those of `examples/answers`, of each presentation and prime the greatest class; further presentations are named with
a prime and a class behind the folder. The program fails at the first presentation whose two answers are not the same, byte for byte.
"""
import pathlib
import sys

KINDS = ["endos", "logs", "towers", "alike", "commands"]
EXAMPLES = pathlib.Path(__file__).resolve().parent.parent / "examples"


def asked():
    """The presentations of the examples, each with its primes and, of each, the greatest class."""
    most = {}
    for answer in (EXAMPLES / "answers").iterdir():
        name, _, words = answer.name.partition(".")
        verb, prime, number, *form = words.split("_")
        if verb == "quotient" and not form:
            most[name, int(prime)] = max(int(number), most.get((name, int(prime)), 0))
    return [(EXAMPLES / f"{name}.txt", prime, number) for (name, prime), number in sorted(most.items())]


def case(text, prime, number):
    lines = pathlib.Path(text).read_text().splitlines()
    name = f"{pathlib.Path(text).stem}_{prime}_{number}"
    return "".join([f"case {name}\n", *(f"> {line}\n" for line in lines), f"briefly {prime} {number}\n\n"])


def main():
    folder, *more = sys.argv[1:]
    further = list(zip(more[0::3], more[1::3], more[2::3]))
    target = pathlib.Path(folder)
    target.mkdir(parents=True, exist_ok=True)
    for kind in KINDS:
        (target / f"{kind}.txt").write_text("")
    (target / "alike.txt").write_text("".join(case(*each) for each in asked() + further))


main()
