#!/usr/bin/env python3
"""Proves, tests and tells how far it is, one line a crate or part. What the prover says goes to a log.

    gate.py prove   proves the program's crates, over what earlier runs kept, and leaves the program as bin/sgb
    gate.py library JOBS
                    proves the crate in this folder alone, for `prove`
    gate.py quick   checks and tests the crates that changed, and those above them, over the same work; no mutants
    gate.py test    the merge gate: all proofs and tests, the mutants, and the proved program at work
"""
import contextlib
import os
import re
import resource
import shutil
import subprocess
import sys
import tempfile
import threading
import time
from collections import Counter
from concurrent.futures import FIRST_COMPLETED, ThreadPoolExecutor, wait

from mutants import MEMORY, rt, rtlib

PROGRAM = 'bin/sgb'
REFUSING, FAILING = 'tests/out/refuse_growth.so', 'tests/out/fail_io.so'
# What the gate spends processor time on.
PROOFS, TESTS, MUTANTS = 'proofs', 'tests', 'mutants'
# What stands before a command that takes only the processors that others leave.
GENTLY = ['nice', '-n', '19']
# How many lines of a part, and of those that explain a failure, are printed.
SHOWN = 30
# How many of the last lines of a part that failed are printed beside those.
LAST = 5

# The lines of `rt ci` that tell how far it is, and those of any command that tell what failed.
PROGRESS = re.compile(r'rt: (?:\S+ (?:(?:NOT )?proved|is kept)|\S+: (?:its tests|trying its)|\S+ ran\b|FAILED'
                      r'|must-fail .*: (?:BAD|NOT))')
# A crate that it proved, or that an earlier run on this machine did.
PROVED = re.compile(r'rt: (\w+) (?:proved$|is kept:)')
FAILURE = re.compile(r'\berror(?:\[|:)|NOT (?:PROVED|REFUSED|proved)|BAD EDIT|FAILED|: not proved|: no proof|could not tell'
                     r'|is not proved|is not in the layout|differ|rt: run rt fmt')


def clock(seconds):
    return '%d:%02d' % (seconds // 60, seconds % 60)


def seconds(used):
    """The seconds of processor that are told of the commands that ended, and of all that they started."""
    return used.ru_utime + used.ru_stime


def kept_back():
    """The seconds of processor that the host of this machine gave to others since it began, as far as it tells."""
    with open('/proc/stat', encoding='ascii') as told:
        words = told.readline().split()
    return int(words[8]) / os.sysconf('SC_CLK_TCK') if len(words) > 8 else 0


def work_of(process):
    """What a process of `rt ci` does."""
    with open('/proc/%d/cmdline' % process, encoding='utf-8', errors='replace') as words:
        if '_tests' in words.read():
            return TESTS
    return MUTANTS if '/rt-edit-' in os.readlink('/proc/%d/cwd' % process) else PROOFS


def watch(top, seen):
    """Keeps what each process below another one does, with its seconds of processor, as they are every other second until that ends."""
    while os.path.isdir('/proc/%d' % top):
        found = {}
        for it in map(int, filter(str.isdigit, os.listdir('/proc'))):
            # (a process may end while it is read)
            with contextlib.suppress(OSError), open('/proc/%d/stat' % it, encoding='utf-8', errors='replace') as told:
                words = told.read().rpartition(')')[2].split()
                found[it] = int(words[1]), (int(words[11]) + int(words[12])) / os.sysconf('SC_CLK_TCK')
        for it, (parent, used) in found.items():
            while parent in found and parent != top:
                parent = found[parent][0]
            with contextlib.suppress(OSError):
                if parent == top:
                    seen[it] = work_of(it), used
        time.sleep(2)


class Log:
    """What all commands of a run say, in a file."""

    def __init__(self, name):
        os.makedirs('bin', exist_ok=True)
        self.path = 'bin/%s.log' % name
        self.file = open(self.path, 'w', encoding='utf-8')
        self.start, self.kept_back, self.writing = time.time(), kept_back(), threading.Lock()
        print('what the prover says goes to %s' % self.path, flush=True)

    def call(self, words, folder='.', tell=None, given=subprocess.DEVNULL, seen=None):
        """Runs a command on what is given, and returns its status, its lines and its seconds of processor; `tell` gets
        each line as it comes, and `seen` the processes below it."""
        lines = []
        with subprocess.Popen(words, cwd=folder, stdin=given, stdout=subprocess.PIPE,
                              stderr=subprocess.STDOUT, encoding='utf-8', errors='replace') as ran:
            if seen is not None:
                threading.Thread(target=watch, args=[ran.pid, seen], daemon=True).start()
            for line in ran.stdout:
                lines.append(line.rstrip('\n'))
                with self.writing:
                    self.file.write('%s: %s' % (os.path.basename(folder), line) if folder != '.' else line)
                    self.file.flush()
                if tell:
                    tell(lines[-1])
            _, status, used = os.wait4(ran.pid, 0)
            ran.returncode = os.waitstatus_to_exitcode(status)
        return ran.returncode, lines, seconds(used)

    def explain(self, lines):
        """Prints the lines that tell what failed."""
        told = [it for it in lines if FAILURE.search(it)] or lines[-5:]
        print('\n'.join('    ' + it[:200] for it in told[:SHOWN]))
        print('    more in %s' % self.path, flush=True)


def crates():
    """The crates of the repository, each after those that it stands on."""
    return sorted(rtlib.crates_below(os.getcwd()), key=lambda it: len(it.below()))


def counted(lines):
    """What the last line `N passed, M failed` counts."""
    found = re.search(r'(\d+) passed, (\d+) failed$', lines[-1]) if lines else None
    return (int(found[1]), int(found[2])) if found else None


def prove_crate(log, crate, jobs):
    """Proves a crate by so many jobs and prints a line of it, and returns whether it is proved."""
    start = time.time()
    if crate.makes_rlib() and crate.is_built():
        print('%-12s was proved before' % crate.name, flush=True)
        return True
    words = [sys.executable, os.path.abspath(__file__), 'library', str(jobs)] if crate.makes_rlib() else ['rt', 'run', '--', '--version']
    status, lines, _ = log.call(words, crate.folder)
    counts = re.findall(r'(?m)^logic=proved .*functions=(\d+)', '\n'.join(lines))
    # (what another checkout on this machine proved of the same files is taken over without a count)
    is_proved = status == 0 and (bool(counts) or not crate.makes_rlib() or crate.is_built())
    what = '%s functions proved' % counts[-1] if counts else 'was proved before' if is_proved else 'NOT PROVED'
    print('%-12s %s, %d s' % (crate.name, what, time.time() - start), flush=True)
    if not is_proved:
        log.explain(lines)
    return is_proved


def library(jobs):
    """Proves the crate in this folder over the libraries below it, which are proved, and leaves its library. `rt lib` does the same, but
    waits for all other runs over the same libraries."""
    rtlib.guarded()
    folder = os.getcwd()
    crate = next(it for it in rtlib.crates_below(os.path.dirname(os.path.dirname(folder))) if it.folder == folder)
    return crate.build_rlib(['--jobs', jobs], anew=False)


def prove():
    """Proves the program's crates, as many at a time as there are processors and memory, those first on which most others stand, and leaves
    the program where it is run. Where few can be proved at a time, each gets several jobs."""
    log = Log('prove')
    program = next(it for it in crates() if it.is_program)
    whole = [*program.below(), program]
    below = [lower.name for it in whole for lower in it.below()]
    left, running, proved = sorted(whole, key=lambda it: -below.count(it.name)), {}, set()
    lanes = max(1, min(rt.processors(), rt.free() // MEMORY))
    with ThreadPoolExecutor(lanes) as pool:
        while left or running:
            ready = [it for it in left if proved >= {lower.name for lower in it.below()}][:lanes - len(running)]
            jobs = lanes // max(1, len(running) + len(ready))
            for crate in ready:
                left.remove(crate)
                running[pool.submit(prove_crate, log, crate, jobs)] = crate
            if not running:
                break
            for it in wait(running, return_when=FIRST_COMPLETED).done:
                crate = running.pop(it)
                if it.result():
                    proved.add(crate.name)
                else:
                    left = []
    if program.name not in proved:
        return 1
    take_program(program)
    print('%s stands after %s' % (PROGRAM, clock(time.time() - log.start)))
    return 0


def take_program(program):
    made = '%s/out/%s' % (program.folder, program.name)
    if not os.path.isfile(PROGRAM) or rtlib.sum_of(made) != rtlib.sum_of(PROGRAM):
        shutil.copy(made, PROGRAM + '.new')
        os.replace(PROGRAM + '.new', PROGRAM)


def changed(all_crates):
    """The crates that git or the kept work tell changed, and those above them."""
    listed = subprocess.run(['git', 'status', '--porcelain', '--', 'crates'], stdout=subprocess.PIPE, text=True).stdout
    edited = set(re.findall(r'crates/(\w+)/(?:src|specs|proofs)/', listed))
    lower = {below.name for it in all_crates for below in it.below()}
    found = []
    for it in all_crates:
        is_kept = it.is_built() if it.name in lower else it.has_kept()
        if it.name in edited or not is_kept or {below.name for below in found} & {below.name for below in it.below()}:
            found.append(it)
    return found, lower


def quick():
    log, passed, failed = Log('quick'), 0, []
    found, lower = changed(crates())
    for crate in found:
        # (a library that others stand on is built by the same check)
        steps = [('layout', [rtlib.RATTLE, 'fmt', '--check', *[it for it in rtlib.files_of(crate.folder)
                                                               if it.endswith(('.rt', '.antt'))]]),
                 ('proof', ['rt', 'lib' if crate.name in lower else 'check']),
                 *[('tests', ['rt', 'test'])] * crate.has_tests()]
        if {it.name for it in crate.below()} & {*failed}:
            print('%-12s stands on what failed' % crate.name)
            continue
        for what, words in steps:
            start = time.time()
            status, lines, _ = log.call(words, crate.folder)
            print('%-12s %s: %s, %d s' % (crate.name, what, 'well' if status == 0 else 'FAILED', time.time() - start), flush=True)
            if status:
                failed.append(crate.name)
                log.explain(lines)
                break
            passed += 1
    print('quick: %d passed, %d failed%s' % (passed, len(failed), '' if found else ' (nothing changed)'))
    return 1 if failed else 0


class Gate:
    """The parts of the merge gate, and what came of them."""

    def __init__(self):
        self.log, self.passed, self.failed, self.telling = Log('test'), 0, 0, threading.Lock()
        # The seconds of processor by what they are spent on, and what the mutants were refused by.
        self.spent, self.refused = Counter(), 'mutants: none was tried'

    def tell(self, line):
        """Prints what `rt ci` says of its way, and names the crates that it proved to the part that tries their mutants."""
        if PROGRESS.match(line):
            self.say(line[len('rt: '):])
        proved = PROVED.match(line)
        if proved:
            library = 'crates/%s/out/rlib' % proved[1]
            if os.path.isdir(library):
                shutil.copytree(library, '%s/%s' % (self.copy, library))
            self.names.write(proved[1] + '\n')

    def tell_mutants(self, line):
        """Prints what is said of mutants, but for each that was refused, which the log alone tells."""
        if line.startswith('mutants: ') and not counted([line]):
            self.refused = line
        elif ': refused by ' not in line and not counted([line]):
            self.say(line)

    def say(self, line):
        with self.telling:
            print('%6s  %s' % (clock(time.time() - self.log.start), line[:160]), flush=True)

    def part(self, name, words, tell=None, folder='.', given=subprocess.DEVNULL, work=TESTS):
        """Runs a part, whose last line counts what passed and failed. Its first lines are printed, or those that `tell` picks."""
        start, told, seen = time.time(), [], {}

        def say(line):
            told.append(line)
            if len(told) <= SHOWN and not counted([line]):
                self.say(line)

        status, lines, used = self.log.call(words, folder, tell or say, given, seen if work == PROOFS else None)
        passed, failed = counted(lines) or (0, 1)
        failed += status != 0 and failed == 0
        with self.telling:
            self.passed, self.failed = self.passed + passed, self.failed + failed
            others = Counter()
            for it, spent in [*seen.values()]:
                others[it] += spent * (it != work)
            self.spent.update(others)
            self.spent[work] += used - sum(others.values())
        if tell and failed:
            self.log.explain(lines)
        elif len(told) > SHOWN:
            self.say('.. more in %s' % self.log.path)
            for line in told[-LAST:] if failed else []:
                self.say(line)
        self.say('%s: %d passed, %d failed, in %s, %s of processor' % (name, passed, failed, clock(time.time() - start), clock(used)))

    def run(self):
        """Runs all parts. The mutants are tried beside the others, in a copy, by the processors that the others leave."""
        with tempfile.TemporaryDirectory(prefix='sgb-beside-') as room, ThreadPoolExecutor(2) as pool:
            self.copy = '%s/repository' % room
            shutil.copytree('.', self.copy, symlinks=True, ignore=shutil.ignore_patterns('.git', 'out', 'bin'))
            proved, told = os.pipe()
            with os.fdopen(told, 'w', buffering=1) as self.names:
                beside = [pool.submit(self.beside, 'mutants', ['tests/mutants.py', '-v', '--as-proved'], proved, self.tell_mutants),
                          pool.submit(self.beside, 'the tests of tests/mutants.py', ['tests/test_mutants.py'])]
                # Several jobs on one check take up to half as much processor again. Of two processors none is idle, so there a check has
                # one job; of more it has those that no other check waits for, so that the last crates do not go one after another alone.
                if rt.processors() <= 2:
                    os.environ.setdefault('RT_JOBS', str(max(1, min(rt.processors(), rt.free() // MEMORY))))
                self.part('rt ci', ['rt', 'ci'], self.tell, work=PROOFS)
            self.run_program()
            for it in beside:
                it.result()
        used, log = seconds(resource.getrusage(resource.RUSAGE_CHILDREN)), self.log
        print(self.refused)
        print('processor time: %s' % ', '.join('%s %.0f%%' % (it, 100 * self.spent[it] / max(1, sum(self.spent.values())))
                                               for it in (PROOFS, TESTS, MUTANTS)))
        print('%.1f minutes of processor time, %.1f minutes by the clock, and %.1f of processor that the host gave to others'
              % (used / 60, (time.time() - log.start) / 60, (kept_back() - log.kept_back) / 60))
        print('%d passed, %d failed' % (self.passed, self.failed))
        return 1 if self.failed else 0

    def beside(self, name, words, given=subprocess.DEVNULL, tell=None):
        self.part(name, [*GENTLY, sys.executable, *words], tell, self.copy, given, MUTANTS)

    def run_program(self):
        program = next(it for it in crates() if it.is_program)
        made = '%s/out/%s' % (program.folder, program.name)
        # rt ci sets aside all that was in out/, so what lies there is what LLVM made of the crate that it proved.
        is_new = os.path.isfile(made) and os.path.getmtime(made) >= self.log.start
        if is_new:
            take_program(program)
        else:
            self.failed += 1
            self.say('no proved program, so none of its examples and tests is run')
        with ThreadPoolExecutor(max(1, rt.processors())) as pool:
            for it in [pool.submit(self.part, *it) for it in self.parts_of_program()] if is_new else []:
                it.result()

    def parts_of_program(self):
        self.log.call(['make', REFUSING, FAILING])
        yield 'examples', ['sh', 'tests/examples.sh', PROGRAM]
        yield 'documents', [sys.executable, 'tests/documents.py', PROGRAM, 'README.md', 'docs/tutorial.md', 'docs/language.md',
                            'docs/combinations.md']
        yield 'shown', [sys.executable, 'tests/shown.py', 'docs/library.md', 'crates/sgb_library_tests']
        yield 'contracts', [sys.executable, 'tests/contracts.py', 'docs/contracts.md']
        yield 'definitions', [sys.executable, 'tests/definitions.py', '--check']
        yield 'manual', [sys.executable, 'docs/manual.py', '--check']
        yield 'links', [sys.executable, 'tests/links.py']
        yield 'kept', ['sh', 'tests/kept.sh', PROGRAM]
        yield 'growths', [sys.executable, 'tests/growths.py', PROGRAM, REFUSING]
        yield 'wants', [sys.executable, 'tests/wants.py', PROGRAM, REFUSING]
        yield 'ends', [sys.executable, 'tests/ends.py', PROGRAM, FAILING]
        yield 'large', [sys.executable, 'tests/large.py', PROGRAM]
        yield 'program', [sys.executable, 'tests/program.py', PROGRAM]
        yield 'pipes', [sys.executable, 'tests/pipes.py', PROGRAM]
        yield 'oneliners', [sys.executable, 'tests/oneliners.py', PROGRAM, 'docs/pipes.md']


COMMANDS = {'prove': prove, 'library': library, 'quick': quick, 'test': lambda: Gate().run()}


if __name__ == '__main__':
    sys.stdout.reconfigure(encoding='utf-8', errors='replace')
    sys.exit(COMMANDS[sys.argv[1]](*sys.argv[2:]))
