"""measure.py PROGRAM [OTHER_PROGRAM..]: times programs of the command language from outside.

A program reads its commands from a pipe. After the commands of a phase comes padding: comment lines, more of them than the pipe and a
reader's buffer hold. Once the pipe has accepted the padding, the program has carried out all commands of the phase. The cost of the
padding itself is measured before each time, and subtracted.

Each figure is measured over at least a fifth of a second. A zone is loaded by as many new processes as that takes; as many queries are
asked, the same ones again if there are too few; and changes are made in as many rounds, each of which leaves the zone as it was.

Before a program is timed, it has to answer all phases for a small zone. If it doesn't give the right answers, its figure is left out.

A zone that takes long to secure with NSEC or NSEC3 is made only in the first run. hickory-server goes over all zone cuts for each RRset:
with a fifth of the names zone cuts it takes a minute or more for 100,000 names with NSEC, and would take hours for a million. So other
programs secure no zone of more than 100,000 names with these, or of more than DENIED names.
"""

import itertools
import math
import os
import subprocess
import sys
import time

from workload import ORIGIN, workload

ENOUGH = 0.2
LONG = 10.0
PADDING = (b"#" + b"." * 126 + b"\n") * 1280
MEMORY = ("peak memory, KB", "memory for a record, octets")
PEAK_TRANSFERRED = "peak memory with a transfer, KB"
PEAK_SECURED = "peak memory with securing, KB"


def text(commands):
    return "".join(f"{command}\n" for command in commands).encode()


class Session:
    """A program that runs."""

    def __init__(self, program):
        self.program = program
        self.process = subprocess.Popen([program, ORIGIN], stdin=subprocess.PIPE, stdout=subprocess.DEVNULL)
        self.carry_out(b"")

    def carry_out(self, commands):
        """Seconds until these commands and the padding are carried out."""
        start = time.perf_counter()
        try:
            self.process.stdin.write(commands)
            self.process.stdin.write(PADDING)
            self.process.stdin.flush()
        except BrokenPipeError:
            sys.exit(f"bench: {self.program} broke off")
        return time.perf_counter() - start

    def time(self, commands):
        """Seconds that these commands take."""
        padding = self.carry_out(b"")
        return self.carry_out(commands) - padding

    def memory(self, field):
        """A figure of the process's memory, in kilobytes: VmHWM is the most that it has had, VmRSS what it has."""
        with open(f"/proc/{self.process.pid}/status") as status:
            return next(int(line.split()[1]) for line in status if line.startswith(field))

    def end(self):
        self.process.stdin.close()
        if self.process.wait() != 0:
            sys.exit(f"bench: {self.program} ended with status {self.process.returncode}")


def time_load(program, load, enough=ENOUGH):
    """A session with the zone, the microseconds for a record of it, and the octets of memory. It is loaded by new processes
    until that took so many seconds."""
    commands = text(load.commands)
    seconds, loads = 0.0, 0
    while True:
        session = Session(program)
        empty = session.memory("VmRSS")
        seconds += session.time(commands)
        loads += 1
        if seconds >= enough:
            grown = 1024.0 * (session.memory("VmRSS") - empty)
            return session, 1e6 * seconds / loads / len(load.commands), grown / len(load.commands)
        session.end()


def time_question(session, question, count=10):
    """Microseconds for a query: of so many, asked in one go, that they take long enough; of this many at first."""
    queries = itertools.cycle(question.commands)
    while True:
        seconds = session.time(text(itertools.islice(queries, count)))
        if seconds >= ENOUGH:
            return 1e6 * seconds / count
        count *= min(10, 1 + math.ceil(ENOUGH / max(seconds, ENOUGH / 10)))


def time_changes(session, changes):
    """Microseconds for a command of each phase, by its title: of so many rounds of all phases that each took long
    enough."""
    commands = [text(phase.commands) for phase in changes]
    seconds = {phase.title: 0.0 for phase in changes if phase.title}
    rounds = 0
    while min(seconds.values()) < ENOUGH:
        for phase, lines in zip(changes, commands):
            if phase.title:
                seconds[phase.title] += session.time(lines)
            else:
                session.carry_out(lines)
        rounds += 1
    return {phase.title: 1e6 * seconds[phase.title] / rounds / len(phase.commands) for phase in changes if phase.title}


def time_securings(program, work):
    """Microseconds to secure the zone with one more signer each time, and the most memory that it takes, by their titles."""
    session = Session(program)
    session.carry_out(text(work.load.commands))
    figures = {}
    for phase in work.securings:
        key, secure = phase.commands
        session.carry_out(text([key]))
        figures[phase.title] = time_question(session, phase._replace(commands=[secure]), 1)
    figures[PEAK_SECURED] = session.memory("VmHWM")
    session.end()
    return figures


def peak_denied(zone):
    return f"peak memory with {zone.title}, KB"


def time_denied(program, zone):
    """Microseconds to secure a zone that NSEC or NSEC3 denies and for each kind of query for a denial, and the most memory
    that it takes, by their titles."""
    session = Session(program)
    session.carry_out(text(zone.load.commands))
    figures = {zone.secure.title: time_question(session, zone.secure, 1)}
    session.carry_out(text(zone.later.commands))
    figures |= {question.title: time_question(session, question) for question in zone.questions}
    figures[peak_denied(zone)] = session.memory("VmHWM")
    session.end()
    return figures


def run(program, work):
    """The figures of one run, by their rows' titles."""
    session, per_record, memory_of_record = time_load(program, work.load)
    figures = {work.load.title: per_record}
    figures |= {question.title: time_question(session, question) for question in work.questions}
    figures |= time_changes(session, work.changes)
    figures |= dict(zip(MEMORY, (session.memory("VmHWM"), memory_of_record)))
    if work.transfer:
        figures[work.transfer.title] = time_question(session, work.transfer, 1)
        figures[PEAK_TRANSFERRED] = session.memory("VmHWM")
    session.end()
    if work.securings:
        figures |= time_securings(program, work)
    for zone in work.denied:
        figures |= time_denied(program, zone)
    return figures


def answers_rightly(program, phases):
    """Whether the program answers these phases, one after the other, as it should."""
    commands = text(command for phase in phases for command in phase.commands)
    answers = [text(it for phase in phases for it in phase.answers), text(it for phase in phases for it in phase.others or phase.answers)]
    try:
        done = subprocess.run([program, ORIGIN], input=commands, stdout=subprocess.PIPE, stderr=subprocess.DEVNULL)
    except OSError as error:
        sys.exit(f"bench: {program}: {error.strerror}")
    return done.returncode == 0 and done.stdout in answers


def known_phases(program):
    """The titles of the phases to which the program has the right answers in a small zone."""
    work = workload(300, 100)
    if not answers_rightly(program, [work.load]):
        sys.exit(f"bench: {program} doesn't load a zone")
    known = {question.title for question in work.questions if answers_rightly(program, [work.load, question])}
    if answers_rightly(program, [work.load, *work.changes, *work.changes]):
        known |= {change.title for change in work.changes}
    if answers_rightly(program, [work.load, work.transfer]):
        known |= {PEAK_TRANSFERRED, work.transfer.title}
    if answers_rightly(program, [work.load, *work.securings]):
        known |= {PEAK_SECURED, *(securing.title for securing in work.securings)}
    for zone in work.denied:
        if answers_rightly(program, [zone.load, *zone.phases()]):
            known |= {peak_denied(zone), *(phase.title for phase in zone.phases() if phase.title)}
    return {work.load.title, *MEMORY, *known}


def measure(program, work, known, runs):
    """The least of each figure in these runs. The figures of what the program doesn't know are left out."""
    work = work._replace(
        questions=[question for question in work.questions if question.title in known],
        transfer=work.transfer if PEAK_TRANSFERRED in known else None,
        securings=work.securings if PEAK_SECURED in known else [],
        denied=[zone for zone in work.denied if zone.secure.title in known],
    )
    taken = [run(program, work)]
    work = work._replace(denied=[zone for zone in work.denied if taken[0][zone.secure.title] < 1e6 * LONG])
    taken += [run(program, work) for _ in range(runs - 1)]
    return {title: min(figures[title] for figures in taken if title in figures) for title in taken[0]}


def shown(figure, title=""):
    """Two decimals, or as many as show two digits; whole numbers for memory."""
    if figure is None:
        return ""
    if "memory" in title:
        return f"{figure:.0f}"
    return f"{figure:.{max(2, 1 - math.floor(math.log10(figure)))}f}"


def quotient(figure, other):
    return figure / other if figure is not None and other is not None else None


def main():
    programs = sys.argv[1:]
    if not programs:
        sys.exit("usage: bench/run [OTHER_PROGRAM..]")
    known = [known_phases(program) for program in programs]
    lookups = int(os.environ.get("LOOKUPS", "100000"))
    runs = int(os.environ.get("RUNS", "3"))
    denied = int(os.environ.get("DENIED", "100000"))
    sizes = [int(word) for word in os.environ.get("SIZES", "1000 10000 100000").split()]
    cores = len(os.sched_getaffinity(0))
    print(f"{cores} cores; microseconds for a command, the fastest of {runs} runs\n")
    titles = ["Phase", "Names", "Here", "Growth"]
    for program in programs[1:]:
        titles += [os.path.basename(program), "Growth", "Ratio"]
    print("| " + " | ".join(titles) + " |")
    print("|" + "---|" * len(titles))
    found = []
    for names in sizes:
        work = workload(names, lookups)
        others = work if names <= denied else work._replace(denied=[])
        works = [work, *itertools.repeat(others, len(programs) - 1)]
        found.append([measure(*each, runs) for each in zip(programs, works, known)])
    for title in [*work.titles(), *MEMORY, PEAK_TRANSFERRED, PEAK_SECURED, *map(peak_denied, work.denied)]:
        before = [None] * len(programs)
        for names, figures in zip(sizes, found):
            row = [each.get(title) for each in figures]
            cells = [title, str(names)]
            for i, figure in enumerate(row):
                cells += [shown(figure, title), shown(quotient(figure, before[i]))]
                if i > 0:
                    cells.append(shown(quotient(row[0], figure)))
            print("| " + " | ".join(cells) + " |")
            before = row


if __name__ == "__main__":
    main()
