"""The tests of a program: journals that are tried, each with its console, and reports of them in the form of JUnit."""
import argparse
import os
import re
import signal
import tempfile
import time
import expect
import lost
import programs

# What XML has no way to say, in texts and in names.
NO_XML = re.compile("[^\t\n\r\x20-\ud7ff\ue000-\ufffd\U00010000-\U0010ffff]")


def listed(lines):
    return "".join(f"  {it}\n" for it in lines)


def fault_without(program, journal, report, wanted_path, lines, failed):
    """What is said of a run that no console stands beside."""
    told = program.explained(journal, report, report.console) if report.running() or report.stopped() or failed else ""
    accept = "" if lines else "If that is right: make accept\n"
    return os.fsencode(f": there is no {wanted_path}. The console is:\n") + report.console + \
        f"{told and told + chr(10)}{listed(lines[bool(failed):])}{accept}".encode()


def fault_of(program, report, journal, test, words):
    """What is wrong with a run, or nothing."""
    summary = program.traced(journal, "--summary")
    failed, position = program.assertion(journal, summary)
    if failed:
        # What comes after it says nothing.
        programs.cut(journal, position)
        report, summary = program.run(journal), program.traced(journal, "--summary")
    lines = ([program.shown.told(failed)] if failed else []) + lost.faults(program, journal, summary)
    if not os.path.exists(test.wanted):
        return fault_without(program, journal, report, test.wanted, lines, failed)
    with open(test.wanted, "rb") as file:
        wanted = file.read()
    lines += [] if failed else expect.faults(program, journal, report, summary, words.expect)
    if report.console == wanted and not report.stopped() and not lines:
        return None
    what = f": the console (+) isn't {test.wanted} (-):\n" + programs.difference(wanted, report.console) + "\n"
    if report.console == wanted and report.stopped() and not failed:
        what = f": the console is {test.wanted}, but {report.stopped()[0]}\n"
    elif report.console == wanted:
        what = f": the console is {test.wanted}, but\n"
    # (What `explained` begins with says an assertion.)
    what += listed(lines[bool(failed):]) + listed(expect.hints(program, journal, report, words.expect, test.path))
    return (what + program.explained(journal, report, report.console + what.encode()) + "\n").encode(errors="replace")


class Test:
    """A journal that is tried: whether it passes, what is said of it, and the seconds that it took."""

    def __init__(self, words, path):
        self.path = path
        self.name = path.removesuffix(".journal")
        self.wanted = f"{self.name}.console"
        began = time.monotonic()
        with tempfile.TemporaryDirectory() as folder:
            self.is_right, self.said = self.tried(words, f"{folder}/journal")
        self.seconds = time.monotonic() - began

    def tried(self, words, journal):
        program = programs.Program(words.board, words.image, words.config, self.path)
        report = program.run(journal) if program.ordered(self.path, journal) else None
        if report is None:
            return False, os.fsencode(f"FAILED: {self.path}\n")
        if words.accept:
            return self.accepted(program, journal, report)
        fault = fault_of(program, report, journal, self, words)
        return not fault, os.fsencode(f"FAILED: {self.path}") + fault if fault else os.fsencode(f"ok: {self.path}\n")

    def accepted(self, program, journal, report):
        failed = program.assertion(journal)[0]
        lines = [program.shown.told(failed)] if failed else lost.faults(program, journal)
        if lines:
            return False, os.fsencode(f"FAILED: {self.path}: {self.wanted} is left as it is\n{listed(lines)}")
        with open(self.wanted, "wb") as file:
            file.write(report.console)
        return True, os.fsencode(f"accepted: {self.wanted}\n")


def each(function, given, jobs):
    """What a function answers to each, in their order, as soon as those before it are done; so many at a time."""
    if jobs == 1 or len(given) == 1:
        yield from map(function, given)
    else:
        # (to load this takes longer than many a test)
        from concurrent.futures import ProcessPoolExecutor
        ignored = (signal.SIGINT, signal.SIG_IGN)
        with ProcessPoolExecutor(jobs, initializer=signal.signal, initargs=ignored) as pool:
            try:
                yield from pool.map(function, given)
            except KeyboardInterrupt:
                pool.shutdown(cancel_futures=True)
                raise


def for_xml(text):
    """A text as XML can have it: what it can't is written as \\x01."""
    return NO_XML.sub(lambda it: "".join(f"\\x{byte:02x}" for byte in it[0].encode(errors="surrogateescape")), text)


def add_suite(path, name, tests):
    """Adds a suite to a file in the form of JUnit."""
    from xml.etree import ElementTree
    suites = ElementTree.parse(path).getroot() if os.path.exists(path) else ElementTree.Element("testsuites")
    failed = sum(not it.is_right for it in tests)
    suite = ElementTree.SubElement(suites, "testsuite", name=for_xml(name), tests=str(len(tests)), failures=str(failed),
                                   errors="0", skipped="0", time=f"{sum(it.seconds for it in tests):.3f}")
    for it in tests:
        case = ElementTree.SubElement(suite, "testcase", classname=for_xml(name), name=for_xml(it.name),
                                      time=f"{it.seconds:.3f}")
        if not it.is_right:
            first, _, rest = it.said.decode(errors="replace").partition("\n")
            failure = ElementTree.SubElement(case, "failure", message=for_xml(first.removeprefix("FAILED: ")))
            failure.text = for_xml(rest)
    ElementTree.indent(suites)
    with open(f"{path}.new", "wb") as file:
        file.write(ElementTree.tostring(suites, "utf-8", xml_declaration=True) + b"\n")
    os.replace(f"{path}.new", path)


def jobs(text):
    if not re.fullmatch(r"\d{1,4}", text) or not 1 <= int(text) <= 1024:
        raise argparse.ArgumentTypeError(f"is a number from 1 to 1024, and not '{text}'")
    return int(text)
