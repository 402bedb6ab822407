#!/usr/bin/env python3
"""Certificates with one small change each: refused, or valid and then with the answer of `quotient`.

    bench/changed_certificates.py PROGRAM [COUNT [SEED]]     # 2,000 changes and seed 1, if none

PROGRAM certifies the examples that have an answer in examples/answers, but those with large certificates. Each certificate
is checked as it is, and must give that answer. Then one of them at a time gets one change: a line left out, said twice or
exchanged with another, or a number, a name or a word in it replaced. What `check` answers with status 0 must be what
`quotient` answers to the presentation, the prime and the class that the changed certificate names. It ends with status 1
where anything else comes.
"""
import collections, pathlib, random, re, subprocess, sys

MOST_BYTES = 60_000
REFUSAL = re.compile(rb"refused: certificate (line \d+|run (iterated|whole) class \d+ [a-z]+)\n")
ROOT = pathlib.Path(__file__).resolve().parent.parent


def run(program, words, text):
    done = subprocess.run([program, *words], input=text, capture_output=True)
    return done.returncode, done.stdout


def certificates(program):
    """The certificates of the examples, each with its answer."""
    for answer in sorted((ROOT / "examples/answers").iterdir()):
        name, words = answer.name.split(".")
        command, prime, class_, *form = words.split("_")
        expected = answer.read_bytes()
        if command != "quotient" or form or expected.startswith(b"refused:"):
            continue
        text = (ROOT / "examples" / (name + ".txt")).read_bytes()
        status, certificate = run(program, ["certify", prime, class_], text)
        if status == 0 and len(certificate) <= MOST_BYTES:
            yield answer.name, certificate, expected


def another_number(draw, digits):
    number = int(digits)
    return str(draw.choice([number + 1, max(number - 1, 0), number + 2, draw.randrange(1, 10)])).encode()


def in_line(draw, line):
    """The line with one of its numbers replaced, or with one of its words left out, repeated or exchanged."""
    numbers = list(re.finditer(rb"\d+", line))
    if numbers and draw.random() < 0.8:
        at = draw.choice(numbers)
        return line[: at.start()] + another_number(draw, at.group()) + line[at.end() :]
    words = line.split(b" ")
    i, j = draw.randrange(len(words)), draw.randrange(len(words))
    kind = draw.randrange(3)
    if kind == 0:
        del words[i]
    elif kind == 1:
        words.insert(j, words[i])
    else:
        words[i], words[j] = words[j], words[i]
    return b" ".join(words)


def changed(draw, certificate):
    """The certificate with one change, and what kind of change it is."""
    lines = certificate.split(b"\n")[:-1]
    first = lines.index(b"run iterated") if b"run iterated" in lines else lines.index(b"run whole")
    # Half of the changes are among the steps, and the others anywhere.
    last = lines.index(b"answer")
    i = draw.randrange(first, last) if draw.random() < 0.5 else draw.randrange(len(lines))
    j = min(max(i + draw.choice([-2, -1, 1, 2]), 0), len(lines) - 1)
    kind = draw.choice(["left out", "twice", "exchanged", "in a line", "in a line", "in a line", "in a line"])
    if kind == "left out":
        del lines[i]
    elif kind == "twice":
        lines.insert(j, lines[i])
    elif kind == "exchanged":
        lines[i], lines[j] = lines[j], lines[i]
    else:
        lines[i] = in_line(draw, lines[i])
    return b"".join(line + b"\n" for line in lines), kind


def question(certificate):
    """The presentation, the prime and the class that a certificate names."""
    lines = certificate.split(b"\n")
    at = next(i for i, line in enumerate(lines) if line.startswith(b"prime "))
    text = b"".join(line + b"\n" for line in lines[1:at])
    return text, lines[at].split(b" ")[1].decode(), lines[at + 1].split(b" ")[1].decode()


def main():
    if len(sys.argv) < 2:
        sys.exit(__doc__)
    program = sys.argv[1]
    count = int(sys.argv[2]) if len(sys.argv) > 2 else 2000
    draw = random.Random(int(sys.argv[3]) if len(sys.argv) > 3 else 1)
    faults, given = 0, []
    for name, certificate, expected in certificates(program):
        given.append((name, certificate))
        if run(program, ["check"], certificate) != (0, expected):
            faults += 1
            print("its answer isn't that of quotient:", name)
    print("certificates of examples:", len(given))
    tally = collections.Counter()
    for n in range(count):
        name, certificate = draw.choice(given)
        other, kind = changed(draw, certificate)
        status, written = run(program, ["check"], other)
        if status == 0:
            text, prime, class_ = question(other)
            ended = "the same" if other == certificate else "valid"
            right = run(program, ["quotient", prime, class_], text) == (0, written)
        else:
            ended = "refused: line" if b"line" in written else "refused: " + written.split(b" ")[-1].decode().strip()
            right = status == 8 and REFUSAL.fullmatch(written) is not None
        tally[ended] += 1
        if not right:
            faults += 1
            print("wrong: change", n, "of", name, kind, status, written[:80])
    for ended, times in sorted(tally.items()):
        print(f"{times:6} {ended}")
    print("faults:", faults)
    sys.exit(faults > 0)


main()
