"""Which lines, functions and sides of branches journals execute, in the form of lcov (geninfo(1), "FILES"): several
runs as one, and of the project's own files alone."""
import os
import re

HEADS = ("SF", "FN", "FNDA", "BRDA", "DA")
# Code without lines, which `board trace` counts as a file of this name.
WORDS = "words-of-ram"


class File:
    """What is known of a file: its lines, its functions and where they begin, the sides of its branches."""

    def __init__(self):
        self.lines, self.functions, self.begins, self.branches = {}, {}, {}, {}

    def add(self, head, fields):
        """A record. Of a branch that wasn't reached the count is `-`."""
        if head == "FN":
            self.begins.setdefault(fields[1], int(fields[0]))
        elif head == "DA":
            self.lines[int(fields[0])] = self.lines.get(int(fields[0]), 0) + int(fields[1])
        elif head == "FNDA":
            self.functions[fields[1]] = self.functions.get(fields[1], 0) + int(fields[0])
        elif head == "BRDA":
            branch, count = tuple(map(int, fields[:3])), 0 if fields[3] == "-" else int(fields[3])
            self.branches[branch] = self.branches.get(branch, 0) + count

    def records(self, path):
        yield f"SF:{path}"
        yield from (f"FN:{line},{name}" for name, line in sorted(self.begins.items(), key=lambda it: (it[1], it[0])))
        yield from (f"FNDA:{count},{name}" for name, count in sorted(self.functions.items()))
        yield from (f"FNF:{len(self.functions)}", f"FNH:{reached(self.functions)}")
        yield from (f"BRDA:{','.join(map(str, branch))},{self.taken(branch)}" for branch in sorted(self.branches))
        yield from (f"BRF:{len(self.branches)}", f"BRH:{reached(self.branches)}")
        yield from (f"DA:{line},{count}" for line, count in sorted(self.lines.items()))
        yield from (f"LF:{len(self.lines)}", f"LH:{reached(self.lines)}", "end_of_record")

    def taken(self, branch):
        """How often a side was taken, or `-` of a branch that was never reached."""
        is_reached = any(count for it, count in self.branches.items() if it[:2] == branch[:2])
        return self.branches[branch] if is_reached else "-"


def reached(counts):
    return sum(count > 0 for count in counts.values())


class Coverage:
    """Files by their paths, but for those in these folders."""

    def __init__(self, others):
        self.files, self.others = {}, [os.path.realpath(it) + os.sep for it in others]

    def is_own(self, path):
        return path != WORDS and not any(os.path.realpath(path).startswith(it) for it in self.others)

    def add(self, text):
        """The records of a run, or of several."""
        file = None
        for line in text.split("\n"):
            head, _, rest = line.partition(":")
            if head == "SF":
                file = self.files.setdefault(rest, File()) if self.is_own(rest) else None
            elif file and head in HEADS:
                file.add(head, rest.split(",", 1) if head in ("FN", "FNDA") else rest.split(","))

    def write(self, path):
        with open(path, "w", encoding="utf-8", errors="surrogateescape") as out:
            out.write("TN:\n" + "".join(f"{it}\n" for name, file in sorted(self.files.items())
                                        for it in file.records(name)))

    def counts(self):
        """Lines, functions and sides of branches: how many were reached, and how many there are."""
        kinds = (("lines", lambda it: it.lines), ("functions", lambda it: it.functions),
                 ("sides of branches", lambda it: it.branches))
        return [(what, sum(reached(of(it)) for it in self.files.values()),
                 sum(len(of(it)) for it in self.files.values())) for what, of in kinds]

    def told(self):
        return "coverage: " + ", ".join(f"{hit} of {count} {what}" for what, hit, count in self.counts())

    def missed(self, percent):
        """What is wrong if so many lines of a hundred have to be reached, or nothing."""
        _, hit, count = self.counts()[0]
        return None if hit * 100 >= percent * count else \
            f"coverage: {hit} of {count} lines are fewer than COVERAGE={percent} of a hundred"


def percent(text):
    """What reads that number."""
    if not re.fullmatch(r"\d{1,3}", text) or int(text) > 100:
        raise ValueError
    return int(text)
