"""hostile.py PROGRAM: times a program with zones that were made to be slow, each beside a plain zone of the same size.

Each zone is made twice, the second time with four times as many names, types or records. Times are measured as measure.py says.
A record that is added is dropped with its set at once, and the figure is the mean of the two commands.

Before it is timed, the program has to give the right answers for a small zone of each kind.

After the zones come queries: the most expensive ones that are known for zoned, if ZONED names it, each beside a plain one of its kind, in
microseconds of processor time. They are in tools/compare/dear_queries.py.
"""

import os
import subprocess
import sys
import tempfile

TOOLS = f"{os.path.dirname(os.path.realpath(__file__))}/../tools"
sys.path[:0] = [f"{TOOLS}/compare", TOOLS]

import dear_queries
from hostile_zones import FILLING, PEAK, RECORD, ZONES, aname_zone
from measure import ENOUGH, answers_rightly, quotient, shown, text, time_load, time_question
from workload import ORIGIN

# The size of the zones in which a program has to give the right answers.
SMALL = 12


def check(program):
    """Ends the run unless the program gives the right answers in small zones, to each question twice."""
    for make, _ in ZONES:
        pair = make(SMALL)
        for zone in (pair.slow, pair.plain):
            if not answers_rightly(program, [zone.load, *zone.asked, *zone.asked]):
                sys.exit(f"bench: {program} doesn't give the right answers: {pair.title}, or the plain zone beside it")


def time_zone(program, zone, told):
    """The figures of one run: what may be told of the zone, by its title, and those of the questions, by their places. It is
    loaded once, unless the time of that is told."""
    session, per_record, memory = time_load(program, zone.load, ENOUGH if FILLING in told else 0.0)
    figures = {FILLING: per_record, RECORD: memory}
    figures |= {i: time_question(session, question, len(question.commands)) for i, question in enumerate(zone.asked)}
    figures[PEAK] = session.memory("VmHWM")
    session.end()
    return figures


def least(program, zone, told, runs):
    """The least of each figure in these runs."""
    figures = [time_zone(program, zone, told) for _ in range(runs)]
    return {key: min(it[key] for it in figures) for key in figures[0]}


def figures_of(pair):
    """What is told of a pair: the key of each figure, and its title in either zone."""
    questions = zip(pair.slow.asked, pair.plain.asked)
    return [(key, key, key) for key in pair.told] + [(i, slow.title, plain.title) for i, (slow, plain) in enumerate(questions)]


def print_row(cells):
    print(f"| {' | '.join(cells)} |", flush=True)


def print_pair(make, n, program, runs):
    """Measures the pair of zones of this size and of four times the size, and prints a row for each figure. The ratio is that
    of the larger ones."""
    pairs = [make(n), make(4 * n)]
    measured = [[least(program, zone, it.told, runs) for zone in (it.slow, it.plain)] for it in pairs]
    (slow, plain), (large_slow, large_plain) = measured
    for key, title, beside in figures_of(pairs[0]):
        sizes = [shown(slow[key], title), shown(large_slow[key], title), shown(quotient(large_slow[key], slow[key]))]
        sizes_beside = [shown(plain[key], beside), shown(large_plain[key], beside)]
        print_row([pairs[0].title, str(n), title, *sizes, beside, *sizes_beside, shown(quotient(large_slow[key], large_plain[key]))])


def print_searches(program, n):
    """Prints how many names are searched for the address of the first of so many ANAME, each to the next. Each set of the
    additional section is one of them, but the first, which is that ANAME."""
    zone = aname_zone(n)
    commands = text([*zone.load.commands, *zone.asked[0].commands])
    output = subprocess.run([program, ORIGIN], input=commands, stdout=subprocess.PIPE, check=True).stdout
    sets = next(int(line.split()[1]) for line in output.splitlines() if line.startswith(b"additional "))
    print(f"\n{n} ANAME, each to the next: {sets - 1} names are searched; {n + 1} is the most that there may be")


def main():
    if len(sys.argv) != 2:
        sys.exit("usage: bench/run hostile")
    program = sys.argv[1]
    runs = int(os.environ.get("RUNS", "3"))
    part = int(os.environ.get("PART", "1"))
    check(program)
    cores = len(os.sched_getaffinity(0))
    print(f"{cores} cores; microseconds for a command, the fastest of {runs} runs\n")
    titles = ["Zone", "n", "What", "At n", "At 4 n", "Growth", "In a plain zone", "At n", "At 4 n", "Ratio"]
    print_row(titles)
    print(f"|{'---|' * len(titles)}")
    for make, size in ZONES:
        print_pair(make, max(min(SMALL, size), size // part), program, runs)
    print_searches(program, max(SMALL, 1000 // part))
    if os.environ.get("ZONED"):
        print("\nQueries to zoned, from frame to frame\n")
        with tempfile.TemporaryDirectory() as folder:
            dear_queries.told(os.environ["ZONED"], folder)


if __name__ == "__main__":
    main()
