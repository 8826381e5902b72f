"""Shows that the fuzzer is sharp: wrong readings are planted, and each must differ from the true one in some case."""
import compileall
import importlib.util
import multiprocessing
import os
import py_compile
import shutil
import sys
import tempfile
import time

import reading
from fuzzing.comparing import Reading
from fuzzing.executed import Watch, lines_of
from fuzzing.working import Source
from fuzzing.wrong_readings import WRONG_READINGS

# A wrong reading that was seen so often, by all jobs together, is not run any further.
ENOUGH = 3
# The files that a long script is for.
OF_SCRIPTS, LONG_SCRIPT = ("script.py", "run.py"), 100000
# The wrong readings by their numbers: they are planted once, before the workers are forked. How often each was seen, and over
# how many cases it was run, is counted by all jobs together.
WRONG = {}
SEEN, RUN = (multiprocessing.Array("l", len(WRONG_READINGS)) for _ in range(2))


def template(folder):
    """A copy of the reading that is compiled, so that a planted one compiles a single file."""
    copy = os.path.join(folder, "template")
    shutil.copytree(reading.__path__[0], copy, ignore=shutil.ignore_patterns("__pycache__"))
    compileall.compile_dir(copy, quiet=1, invalidation_mode=py_compile.PycInvalidationMode.UNCHECKED_HASH)
    return copy


def plant(folder, number, file, old, new):
    """The module of a copy of the reading with another text in one file, or None where the text does not stand there once."""
    name = "planted_%d" % number
    copy = os.path.join(folder, name)
    shutil.copytree(os.path.join(folder, "template"), copy)
    path = os.path.join(copy, file)
    with open(path, encoding="utf-8") as source:
        text = source.read()
    if text.count(old) != 1:
        return None
    with open(path, "w", encoding="utf-8") as target:
        target.write(text.replace(old, new))
    os.remove(importlib.util.cache_from_source(path))
    return importlib.import_module(name)


def planted(folder):
    """The wrong readings, by their numbers in the table."""
    sys.path.insert(0, folder)
    template(folder)
    found = {number: plant(folder, number, *row[:3]) for number, row in enumerate(WRONG_READINGS)}
    return {number: Reading(module) for number, module in found.items() if module}


def uproot(number):
    """Lets go of a wrong reading that is not run any further."""
    del WRONG[number]
    name = "planted_%d" % number
    for module in [it for it in sys.modules if it == name or it.startswith(name + ".")]:
        del sys.modules[module]


def places_of(wrong):
    """The path and the lines of each wrong reading, by its number. The lines are None for one that is always run."""
    found = {}
    for number in wrong:
        file, old = WRONG_READINGS[number][:2]
        path = os.path.join(reading.__path__[0], file)
        with open(path, encoding="utf-8") as source:
            found[number] = path, lines_of(source.read(), old)
    return found


def may_differ(case, path, lines, met):
    """Whether a wrong reading could be seen in a case at all, or soon."""
    if len(case.script) > LONG_SCRIPT and os.path.basename(path) not in OF_SCRIPTS:
        return False
    return lines is None or any((path, line) in met for line in lines)


def count(array, number, more):
    with array.get_lock():
        array[number] += more


def look(true, watch, places, case):
    """Counts which wrong readings a case shows, and gives what the true one answers."""
    expected, met = watch.over(true, case)
    for number in list(WRONG):
        if SEEN[number] >= ENOUGH:
            uproot(number)
            continue
        count(RUN, number, 1)
        if may_differ(case, *places[number], met):
            count(SEEN, number, WRONG[number](case) != expected)
    return expected.answers


def work(options, job):
    """Makes cases until each wrong reading was seen often enough, or the time is over."""
    true, source, end = Reading(reading), Source(options.folders, options.seed, job,
                                                 options.jobs), time.monotonic() + options.seconds
    places = places_of(WRONG)
    watch = Watch((path, lines) for path, lines in places.values() if lines)
    # The worked cases themselves are left out: what is shown is what the mutations find.
    source.first = []
    while WRONG and time.monotonic() < end and source.number != options.count:
        case = source.next()
        source.learn(case, look(true, watch, places, case))


def sharp(options, in_parallel):
    """Prints the table, and gives the status."""
    with tempfile.TemporaryDirectory() as folder:
        WRONG.update(planted(folder))
        fitting = set(WRONG)
        in_parallel(work, options)
    for number, (file, _, _, name) in enumerate(WRONG_READINGS):
        said = "seen in %2d of %6d cases" % (SEEN[number], RUN[number])
        print("%-20s %-80s %s" % (file, name, said if number in fitting else "its text does not stand in the file once"))
    seen = sum(1 for times in SEEN if times)
    print("%d of %d wrong readings seen" % (seen, len(WRONG_READINGS)))
    return 0 if seen == len(WRONG_READINGS) else 1
