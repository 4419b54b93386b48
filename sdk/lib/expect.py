"""What may be expected of a run besides that nothing of its output is lost: the words of EXPECT."""
import argparse
import os
import re
import subprocess
import strict

WORDS = ("console", "lines", "exception", "refused", "deadlock", "off", "races", "stacks")
STRICT = ("exception", "refused", "off", "races", "stacks")
SHOWN = 5                               # races that are shown
QUICK = 5000000                         # events of a run that is looked through for races and stacks unasked


def words_of(known, takes_programs):
    """What reads words of a command line, as argparse wants it."""
    def read(text):
        for it in text.split():
            if it not in known and not (takes_programs and "/" in it):
                more = ", or a program with a / in its name" if takes_programs else ""
                raise argparse.ArgumentTypeError(f"has words of {', '.join(known)}{more}, and not '{it}'")
            if it not in known and not os.access(it, os.X_OK):
                raise argparse.ArgumentTypeError(f"names a program that isn't there: '{it}'")
        if not text.split():
            raise argparse.ArgumentTypeError(f"needs a word of {', '.join(known)}")
        return text.split()
    return read


def exceptions(summary):
    return [it.strip() for it in re.findall(r"(?m)^ *last exception at .*", summary)]


def deadlocks(summary):
    return re.findall(r"(?m)^(?:deadlock|circular wait): .*", summary)


def races(program, journal):
    """The lines of the words that have one."""
    return re.findall(r"(?m)^race at .*", program.traced(journal, "--races"))


def overflows(program, journal):
    """The line of a store below a stack, if there is one."""
    return re.findall(r"(?m)^stack overflow: (?!none$).*", program.traced(journal, "--stacks"))


def fault_by(check, journal, report):
    """What a program of one's own says against a run, or nothing."""
    for name, text in (("console", report.console), ("report", report.text.encode())):
        with open(f"{journal}.{name}", "wb") as file:
            file.write(text)
    ran = subprocess.run([check, f"{journal}.console", f"{journal}.report"], stdout=subprocess.PIPE,
                         stderr=subprocess.STDOUT, check=False)
    said = ran.stdout.decode(errors="replace").split("\n")[0]
    return None if ran.returncode == 0 else f"{check} ends with status {ran.returncode}{said and ': ' + said}"


def faults(program, journal, report, summary, words):
    """What is wrong with a run by these words, a line for each."""
    found = exceptions(summary) if "exception" in words else []
    found += strict.faults(program, journal) if "refused" in words else []
    found += deadlocks(summary) if "deadlock" in words else []
    found += ["the board is on in the end"] if "off" in words and not report.is_off else []
    found += overflows(program, journal) if "stacks" in words else []
    if "races" in words:
        raced = races(program, journal)
        found += raced[:SHOWN] + ([f"races: {len(raced)} words"] if len(raced) > SHOWN else [])
    found += filter(None, (fault_by(it, journal, report) for it in words if it not in WORDS))
    return [program.shown.told(it) for it in found]


def hints(program, journal, report, words, path):
    """Which commands may tell more of a run that has failed: a line for each that finds something."""
    if report.events > QUICK:
        return []
    name = os.path.basename(program.image).removesuffix(".elf")
    more = f"{'' if name == 'firmware' else f' PROGRAM={name}'} JOURNAL={path}"
    found = [] if "stacks" in words else [f"{it} (make stacks{more})" for it in overflows(program, journal)]
    raced = [] if "races" in words else races(program, journal)
    found += [f"{len(raced)} word{'s have' if len(raced) > 1 else ' has'} a race (make races{more})"] if raced else []
    return [program.shown.told(it) for it in found]
