#!/usr/bin/env python3
"""The program beside GAP's PQuotient: against_gap.py PROGRAM LIST ROUNDS.

Each line of LIST is an example, a prime, a class, and how often endomorphisms are applied for GAP, which knows none. Ours is the
wall time of a whole process, GAP's that of the call of PQuotient alone; of each the least of so many rounds. The texts of the
answers are compared byte for byte. The status is 1 where one differs.
"""
import math, os, re, subprocess, sys, tempfile, time

HERE = os.path.dirname(os.path.abspath(__file__))
EXAMPLES = os.path.join(HERE, "..", "examples")


class Line:
    """A line of a presentation, read as GAP's expressions in the free group F."""

    def __init__(self, text, names):
        self.tokens = re.findall(r"->|[A-Za-z][A-Za-z0-9_]*|[0-9]+|[-*^=,()\[\]]", text)
        self.names = names

    def next(self):
        return self.tokens[0] if self.tokens else ""

    def take(self):
        return self.tokens.pop(0)

    def unit(self):
        token = self.take()
        if token == "(":
            word = self.word()
            self.take()
            return "(" + word + ")"
        if token == "[":
            word = self.word()
            while self.take() == ",":
                word = "Comm(%s,%s)" % (word, self.word())
            return word
        return "One(F)" if token == "1" else "F.%d" % (self.names.index(token) + 1)

    def exponent(self):
        if self.next() == "-":
            self.take()
            return "-" + self.take()
        return self.take() if self.next().isdigit() else self.unit()

    def factor(self):
        word = self.unit()
        while self.next() == "^":
            self.take()
            word = "(%s^%s)" % (word, self.exponent())
        return word

    def word(self):
        word = self.factor()
        while self.next() == "*":
            self.take()
            word += "*" + self.factor()
        return word

    def relator(self):
        word = self.word()
        if self.next() == "=":
            self.take()
            word = "(%s)*(%s)^-1" % (word, self.word())
        return word

    def arrow(self):
        name = self.take()
        self.take()
        return self.names.index(name), self.word()

    def parts(self, part):
        found = [part()]
        while self.next() == ",":
            self.take()
            found.append(part())
        return found


def gap_script(text, prime, class_, depth, rounds):
    """The words that make GAP answer."""
    names, parts = [], {"fixed": [], "iterated": [], "endo": []}
    for line in text.split("\n"):
        keyword, _, rest = line.strip().partition(" ")
        if keyword == "generators":
            names = re.findall(r"[A-Za-z][A-Za-z0-9_]*", rest)
        elif keyword == "endo":
            reader = Line(rest, names)
            images = dict(reader.parts(reader.arrow))
            parts["endo"].append("[" + ",".join(images[k] for k in range(len(names))) + "]")
        elif keyword in parts:
            reader = Line(rest, names)
            parts[keyword] += reader.parts(reader.relator)
    quoted = ",".join('"%s"' % name for name in names)
    return "\n".join([
        'Read("%s");' % os.path.join(HERE, "against_gap.g"),
        'SetPrintFormattingStatus("*stdout*", false);',
        "F := FreeGroup(%s);;" % quoted,
        "relators := Expanded(F, [%s], [%s], [%s], %d);;" % tuple([",".join(parts[k]) for k in ("fixed", "iterated", "endo")] + [depth]),
        "Answered([%s], F, relators, %d, %d, %d);" % (quoted, prime, class_, rounds),
        "QUIT;", ""])


def by_gap(text, prime, class_, depth, rounds):
    """Milliseconds, and the answer text."""
    script = gap_script(text, prime, class_, depth, rounds)
    said = subprocess.run(["gap", "-A", "-q", "-o", "6g"], input=script.encode(), capture_output=True, check=True).stdout.decode()
    took, _, answer = said.partition("\n")
    return int(took.split()[1]) / 1000, answer


def by_program(program, path, prime, class_, rounds):
    """Milliseconds, the peak of memory in megabytes, and the answer text."""
    least, peak, answer = math.inf, 0, b""
    for _ in range(rounds):
        with open(path, "rb") as source, tempfile.TemporaryFile() as sink:
            start = time.perf_counter()
            child = subprocess.Popen([program, "quotient", str(prime), str(class_)], stdin=source, stdout=sink)
            _, status, usage = os.wait4(child.pid, 0)
            least = min(least, (time.perf_counter() - start) * 1000)
            child.returncode = os.waitstatus_to_exitcode(status)
            peak = max(peak, usage.ru_maxrss / 1024)
            sink.seek(0)
            answer = sink.read()
    return least, peak, answer.decode()


def main(program, listed, rounds):
    ratios, differing = [], 0
    print("| Example | Prime | Class | Rank | Text | Ours, ms | GAP, ms | Ratio | Peak, MB |")
    print("|---|---|---|---|---|---|---|---|---|")
    for line in open(listed):
        if line.startswith("#") or not line.strip():
            continue
        name, *numbers = line.split()
        prime, class_, depth = map(int, numbers)
        path = os.path.join(EXAMPLES, name + ".txt")
        ours, peak, answer = by_program(program, path, prime, class_, rounds)
        theirs, text = by_gap(open(path).read(), prime, class_, depth, rounds)
        same = answer == text
        differing += not same
        ratios.append(ours / theirs)
        rank = re.search(r"^rank (\d+)$", answer, re.M)
        print("| `%s` | %d | %d | %s | %s | %.2f | %.2f | %.3f | %.1f |" % (
            name, prime, class_, rank.group(1) if rank else "-", "same" if same else "differs", ours, theirs, ours / theirs, peak), flush=True)
    print("\n%d answers, %d differ from GAP's; geometric mean of the ratios %.3f" % (
        len(ratios), differing, math.exp(sum(map(math.log, ratios)) / len(ratios))))
    return 1 if differing else 0


if __name__ == "__main__":
    sys.exit(main(os.path.abspath(sys.argv[1]), sys.argv[2], int(sys.argv[3])))
