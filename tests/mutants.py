#!/usr/bin/env python3
"""Tries mutants of the crates: each changes what a function does, and the prover has to refuse it at that function.

    mutants.py [-v] [NAME | FILE ..]
    mutants.py --as-proved
    mutants.py --unchanged [NAME ..]

In crates/NAME/mutants/gate/ stand those that the gate tries, in mutants/full/ all others; those in must-fail/ are tried by `rt ci`. All
are files in the form that the toolchain gives to a must-fail edit, named FUNCTION-what_is_wrong.edit.

Many are tried by one check, on a copy of the crate. A mutant of one function is laid on a copy of that function, beside it under
another name, with its contract and its written proofs, so that one check takes many mutants of one function. Where no copy can stand,
as in a trait's impl, it is laid on the function itself. A caller knows a function by its contract alone, so all other bodies are left
out, and the check passes over what no mutant changes. Where no refusal names a mutant, or the crate cannot be read with it, it is tried
again alone; one that changes more than bodies is tried alone with all bodies, and any refusal will do.

A mutant of a function with written proofs of goals is tried by these alone first, which is quick, and by all goals where none refuses
it. A line `No written answer refuses it.` in the file leaves the first step out. What refuses a mutant is told apart:

    a goal             no proof of it is found, and it has no written proof, or one that is a tactic alone
    a written proof    it no longer fits what the function does, and nothing shows that no other proof would

A mutant that is refused only because a proof names what it removed fails.

With names it tries the mutants of those crates, with files those, also of must-fail/; -v tells of each what refused it, with the
seconds of that function. With --as-proved it reads names of crates, one a line, as another run proves them and leaves their libraries:
it tries the mutants of mutants/gate/ of each once those below it are named, of mutants/full/ only whether they can be laid, and a crate
that is not named in the end fails. With --unchanged each copy of a function keeps the body of the function, and none may be refused: so
what refuses a mutant is what is wrong in it.
"""
import contextlib
import importlib.machinery
import importlib.util
import itertools
import os
import re
import resource
import shutil
import subprocess
import sys
import tempfile
import threading
import time
from collections import Counter
from concurrent.futures import ThreadPoolExecutor, wait

GATE, FULL = 'mutants/gate', 'mutants/full'
# What one check takes, at most: of memory, and of the disk on which its copy lies.
MEMORY = 3_000_000_000
DISK = 1_000_000_000
# How many mutants a check takes, at most.
AT_ONCE = 25
# One check is started at a time.
STARTING = threading.Lock()
# By crate, the seconds of processor that each of its checks took.
TOOK = {}
# What refused a mutant.
BY_GOAL, BY_PROOF = 'a goal', 'a written proof'

NAME = re.compile(r'\w+-[\w-]+\.edit')
FUNCTION = re.compile(r'( *)(?:pub(?:\([^)]*\))? )?(?:\w+ )*fn (\w+)')
OWNER = re.compile(r'(?:pub(?:\([^)]*\))? )?(?:impl|trait)\b')
# The line of a mutant that is not tried by written proofs alone.
NO_ANSWER = 'No written answer refuses it.'
# With this on a function, a check tries those of its goals alone whose proof is written.
NO_TACTIC = '#[tactic(none)]'
# What stands for a body that is left out, and the files of its proof, which it has none of then.
LEFT_OUT = 'unreachable!()'
PROOFS = ('Answers.antt', 'Invariants.antt', 'Proof.antt')
# A function that a check is done with.
DONE = re.compile(r'checked (\S+), \d+ of \d+$')
# How a check tells that a proof names what the mutant removed, which says nothing of a contract.
VANISHED = re.compile(r'has no field|is not in scope|has no `|was not admitted')
# How it tells that a tactic found no proof, and the text before a tactic that is a whole written proof.
NOT_FOUND = re.compile(r'\.antt:(\d+):(\d+): error: `[^`]*`: `(?:search|grind|omega|simp)\b')
WHOLE_PROOF = re.compile(r'(?m)^[\w-]+ \w+ =\s*\Z')


def kit():
    """The module of the toolchain's command `rt`, which knows the crates, their checks and the form of an edit."""
    file = os.path.realpath(shutil.which('rt') or sys.exit('the Rattle toolchain is not here: its command rt is not found'))
    loader = importlib.machinery.SourceFileLoader('rt', file)
    module = importlib.util.module_from_spec(importlib.util.spec_from_loader('rt', loader))
    loader.exec_module(module)
    return module


rt = kit()
rtlib = rt.rtlib


class Function:
    """A function of a file: its module, the type and the trait of its impl, or the trait alone, its name, the line of that, and the
    lines of its body; and of a copy the function that it stands beside."""

    def __init__(self, path, module, owner, name, head, lines, origin=None):
        self.file, self.module, self.owner, self.name, self.head, self.lines = path, module, owner, name, head, lines
        self.key, self.origin = ('/'.join(module), owner, name), origin or self
        # The modules where it may stand: a method stands where its type does, of which there may be several of one name.
        self.homes = origin.homes if origin else [module]

    def copy(self, ending):
        """The function that stands beside it under its name and such an ending."""
        name = '%s__%s' % (self.name, ending)
        return Function(self.file, self.module, self.owner, name, self.head, self.lines, self)

    def takes_copy(self, lines):
        """Whether a copy may stand beside it in these lines of its file: not in a trait, nor in an impl of one, where all names are
        given, nor where its proofs are not known to be, nor beside one whose proof is not its own."""
        return self.is_alone(lines) and len(self.homes) == 1 and (self.owner is None or self.owner[1:] == ('',))

    def is_alone(self, lines):
        """Whether its proof is its own: it calls neither itself nor others in a circle, whose proof is theirs."""
        body = '\n'.join(lines[self.lines[0]:self.lines[1] + 1])
        attributes = '\n'.join(lines[it] for it in range(self.above(lines), self.head))
        before = r'(?:\bself\.|\b(?:Self|%s)::)' % self.owner[0] if self.owner else r'(?:::|(?<![\w.]))'
        own_call = r'%s%s(?:::<.*>)?\(' % (before, self.name)
        # (an attribute of several lines would be lost)
        is_whole = not lines[self.above(lines) - 1].endswith(']')
        return is_whole and not re.search(own_call, body.partition('{')[2]) and '#[cycle' not in attributes

    def has_clauses_of_impl(self, lines):
        """Whether it has clauses in place of its trait's: a goal of its own says that they imply what the trait's do."""
        return bool(self.owner and any(self.owner[1:]) and any('ensures' in it for it in lines[self.head:self.lines[0] + 1]))

    def above(self, lines):
        """The line with which its attributes begin, of which each has one."""
        return next(it for it in range(self.head, -1, -1) if it == 0 or not lines[it - 1].lstrip().startswith('#['))

    def folder(self):
        """Where the proofs of its goals are written, if any are."""
        home = self.homes[0] if self.homes else self.module
        return '/'.join(['proofs', *home, *([''.join(self.owner)] if self.owner else []), self.name])

    def has_answers(self, crate):
        """Whether proofs of its goals are written, and it does not say itself how to prove it."""
        lines = rtlib.text_of('%s/%s' % (crate.folder, self.file)).split('\n')
        is_told = any('tactic(' in it for it in lines[self.above(lines):self.head + 1])
        return not is_told and os.path.isfile('%s/%s/Answers.antt' % (crate.folder, self.origin.folder()))

    def path(self):
        """By what a check finds the function: by the end of its name where it is a method, which stands where its type does."""
        return '::'.join([''.join(self.owner), self.name] if self.owner else [*self.module, self.name])

    def is_at(self, path):
        """Whether this is the function, or one of its closures, that the check calls by this path."""
        words = path.split('::')[1:]
        own = [*([''.join(self.owner)] if self.owner else []), self.name]
        if 'fn' in words:
            at = words.index('fn')
            module, words = words[:at], words[at + 1:at + 1 + len(own)]
        else:
            module, words = words[:-len(own)], words[-len(own):]
        if not self.owner:
            return module == self.module and words == own
        # A method stands where its type does, and the name of a trait's impl may tell the trait's arguments too.
        is_owner = words[:1] == own[:1] or any(self.owner[1:]) and words[0].startswith(own[0])
        return len(words) == 2 and is_owner and words[1] == own[1]


def owner_of(header):
    """The type and the trait of an impl's header, or the name of a trait alone."""
    words, depth = '', 0
    for letter in header.replace('->', ''):
        depth += (letter == '<') - (letter == '>')
        words += letter if depth == 0 and letter not in "<>&'" else ' '
    words = re.sub(r'\w+::', '', words.split('{')[0].split(' where ')[0]).split()
    if 'impl' not in words:
        return (words[words.index('trait') + 1].rstrip(':'),)
    words = words[words.index('impl') + 1:]
    return (words[words.index('for') + 1], words[0]) if 'for' in words else (words[0].rstrip(':'), '')


def body_of(lines, start, indent):
    """The first and the last line of the body of the function that begins here, in the layout of `rt fmt`."""
    for at in range(start, len(lines)):
        line = lines[at].rstrip()
        if not line.startswith(indent) or line[len(indent):len(indent) + 1] in ('', ' '):
            continue
        if line.endswith('}'):
            return at, at
        if line.endswith('{'):
            end = next((i for i in range(at + 1, len(lines)) if lines[i].rstrip() == indent + '}'), None)
            return end and (at, end)
        if at > start and FUNCTION.match(line):
            break
    return None


def module_of(path):
    return [it for it in path[len('src/'):-len('.rt')].split('/') if it not in ('lib', 'main', 'mod')]


def functions_of(crate):
    """By file, its code, of which no comment, string or clause is left, in lines, and the functions with a body in it."""
    texts = {os.path.relpath(file, crate.folder): text for file, text in rtlib.blanked(crate.folder).items() if file.endswith('.rt')}
    homes, found = {}, {}
    for path, text in texts.items():
        for name in re.findall(r'(?m)^(?:pub(?:\([^)]*\))? )?(?:struct|enum|union) (\w+)', text):
            homes.setdefault(name, []).append(module_of(path))
    for path, text in texts.items():
        lines, owner = text.split('\n'), None
        found[path] = (lines, [])
        for at, line in enumerate(lines):
            if OWNER.match(line):
                owner = owner_of(' '.join(lines[at:at + 4]))
            head = FUNCTION.match(line)
            body = head and body_of(lines, at, head[1])
            if body:
                it = Function(path, module_of(path), owner if head[1] else None, head[2], at, body)
                it.homes = homes.get(owner[0], []) if it.owner and it.owner[1:] == ('',) else it.homes
                found[path][1].append(it)
    return found


class Mutant:
    """A mutant of a crate: the texts that it makes, and the functions whose bodies it changes, none where it changes more. A copy stands
    for a function that takes one."""

    def __init__(self, crate, file, functions):
        self.crate, self.file = crate, file
        self.label = os.path.relpath(file)
        self.is_full = os.path.dirname(file).endswith(FULL)
        self.texts, self.why = rt.read_edit(file, crate.folder)
        if not self.why and all(rtlib.text_of('%s/%s' % (crate.folder, it)) == text for it, text in self.texts.items()):
            self.why = 'it changes nothing'
        self.functions = [] if self.why else self.changed(functions)
        self.by_answers = bool(self.functions) and NO_ANSWER not in rtlib.text_of(file).split('\n')
        self.is_beside = len(self.functions) == 1 and self.functions[0].takes_copy(self.lines())
        if self.is_beside:
            ending = os.path.basename(file).partition('-')[2].removesuffix('.edit').replace('-', '_')
            self.functions = [self.functions[0].copy(ending)]

    def lines(self):
        """The lines that it makes of the file of its one function."""
        return self.texts[self.functions[0].file].split('\n')

    def copy(self, attribute):
        """The lines of the copy of its function, with this attribute."""
        it, lines = self.functions[0], self.lines()
        head = re.sub(r'\bfn %s\b' % it.origin.name, 'fn ' + it.name, lines[it.head], count=1)
        return [*lines[it.above(lines):it.head], *attribute, head, *lines[it.head + 1:it.lines[1] + 1]]

    def changed(self, functions):
        """The functions whose bodies hold its texts, none where a text stands outside; a pair meets what those before it made."""
        found, path, texts = {}, None, {}
        for line in rtlib.text_of(self.file).split('\n'):
            if line.startswith('file: '):
                path = line[len('file: '):].strip()
                texts.setdefault(path, rtlib.text_of('%s/%s' % (self.crate.folder, path)))
            elif line.startswith('old: '):
                before, old, after = texts[path].partition(line[len('old: '):])
                at = before.count('\n')
                inside = [it for it in functions.get(path, ([], []))[1] if it.lines[0] <= at <= it.lines[1]]
                found[inside[-1].key if inside else None] = inside[-1] if inside else None
            elif line.startswith('new:'):
                texts[path] = before + line[len('new:'):].removeprefix(' ') + after
        return [] if None in found else [*found.values()]


def mutants_of(crate, files):
    """The mutants of a crate, all or those in these files, and what lies beside them and is none."""
    folders = [it for it in ('%s/%s' % (crate.folder, it) for it in (GATE, FULL)) if os.path.isdir(it)]
    found = files or ['%s/%s' % (folder, it) for folder in folders for it in sorted(os.listdir(folder))]
    unread = [it for it in found if not NAME.fullmatch(os.path.basename(it)) or not os.path.isfile(it)]
    functions = functions_of(crate) if found else {}
    return [Mutant(crate, it, functions) for it in found if it not in unread], [os.path.relpath(it) for it in unread]


def groups_of(mutants):
    """The mutants of a crate in groups with at most one a function or copy; one that changes more than bodies is a group of its own."""
    groups = []
    for it in mutants:
        keys = {function.key for function in it.functions}
        fit = next((keyed for keyed in groups if keys and keyed[0] and not keys & keyed[0] and len(keyed[1]) < AT_ONCE), None)
        if fit:
            fit[0].update(keys)
            fit[1].append(it)
        else:
            groups.append((keys, [it]))
    return [mutants for _, mutants in groups]


def lay(crate, mutants, room, by_answers):
    """Lays the mutants on a copy of the crate, and returns those that another one keeps off, and those that written proofs alone can
    refuse in it, if any are to."""
    for part in rtlib.PARTS:
        if os.path.isdir('%s/%s' % (crate.folder, part)):
            shutil.copytree('%s/%s' % (crate.folder, part), '%s/%s' % (room, part))
    if all(it.functions for it in mutants):
        leave_out(crate, {it.key for mutant in mutants if not mutant.is_beside for it in mutant.functions}, room)
    left, opened, copies = [], [], {}
    for mutant in mutants:
        is_opened = by_answers and mutant.by_answers and any(it.has_answers(crate) for it in mutant.functions)
        texts, why = ({}, None) if mutant.is_beside else rt.read_edit(mutant.file, room)
        if why:
            left.append(mutant)
            continue
        opened += [mutant] * is_opened
        for path, text in texts.items():
            write('%s/%s' % (room, path), text)
        for it in mutant.functions:
            if mutant.is_beside:
                copies.setdefault(it.file, []).append((it, mutant.copy([NO_TACTIC] * is_opened)))
                lay_proofs(crate, it, room)
            elif is_opened and it.has_answers(crate):
                lines = rtlib.text_of('%s/%s' % (room, it.file)).split('\n')
                lines[it.head] = re.sub(r'^( *)', r'\1%s ' % NO_TACTIC, lines[it.head])
                write('%s/%s' % (room, it.file), '\n'.join(lines))
    for path, found in copies.items():
        lines = rtlib.text_of('%s/%s' % (room, path)).split('\n')
        # (from the end, so that those before it stand where they stood)
        for it, own in sorted(found, key=lambda copy: -copy[0].lines[1]):
            lines[it.lines[1] + 1:it.lines[1] + 1] = ['', *own]
        write('%s/%s' % (room, path), '\n'.join(lines))
    return left, opened


def leave_out(crate, changed, room):
    """Leaves out the bodies on a copy of the crate, but for those that a mutant changes where they stand, of one line, and whose proof is
    not their own: a goal stands open for each, and each line where it stood."""
    for path, (code, functions) in functions_of(crate).items():
        lines = rtlib.text_of('%s/%s' % (room, path)).split('\n')
        for it in functions:
            (start, end), above = it.lines, it.above(code)
            is_of_trait = it.owner and len(it.owner) == 1 or it.has_clauses_of_impl(lines)
            if it.key in changed or end - start < 2 or is_of_trait or not it.is_alone(code):
                continue
            lines[start + 1:end] = [LEFT_OUT] + [''] * (end - start - 2)
            lines[above:it.head] = ['' if 'tactic(' in line else line for line in lines[above:it.head]]
            lines[it.head] = re.sub(r'^( *)', r'\1%s ' % NO_TACTIC, lines[it.head])
            for name in PROOFS:
                with contextlib.suppress(FileNotFoundError):
                    os.remove('%s/%s/%s' % (room, it.folder(), name))
        write('%s/%s' % (room, path), '\n'.join(lines))


def write(path, text):
    with open(path, 'w', encoding='utf-8') as file:
        file.write(text)


def lay_proofs(crate, copy, room):
    """Gives a copy the written proofs of its function, where they name what is made of that."""
    origin, folder = copy.origin.folder(), '%s/%s' % (room, copy.folder())
    if os.path.isdir('%s/%s' % (crate.folder, origin)):
        shutil.copytree('%s/%s' % (crate.folder, origin), folder)
        own, its = ['.'.join(['Rattle', crate.name, *it.split('/')]) for it in (origin, copy.folder())]
        for name in os.listdir(folder):
            text = rtlib.text_of('%s/%s' % (folder, name))
            write('%s/%s' % (folder, name), re.sub(r'%s\b' % re.escape(own), its, text))


class Said:
    """What the check of a copy of a crate in a folder said."""

    def __init__(self, text, spent, changed, room):
        self.lines, self.spent = text.rstrip('\n').split('\n'), spent
        self.unread = next((it for it in self.lines if rt.unread(it, changed)), '')
        if rtlib.STALE.search(text):
            self.unread = 'the kept work of a library could not be used'
        if not text.strip():
            # (on a full disk there is no room for what it says)
            self.unread = 'the check said nothing'
        if not self.unread and not self.lines[-1].startswith(('holes=', 'only=')):
            self.unread = next((it for it in self.lines if 'error' in it), self.lines[-1])
        self.told = re.findall(r'(?m)^(?:fn|struct|enum|trait|impl) (\S+): (.*)$', text)
        # The errors of written proofs that are a tactic alone.
        self.not_found = {it for it in self.lines if is_of_tactic(it, room)}

    def refusal(self, crate, path, told):
        """What of a function was refused, and by what, None where no more than a name had vanished; None where nothing was."""
        if told.startswith('no proof'):
            goal = re.search(r'did not prove (`[^`]*`)', told)
            return goal and (goal[1], BY_GOAL)
        # The proof of a function that calls itself stands under its name with a plus; functions that call each other
        # have one such folder, where each answer begins with its function's name.
        *above, name = path.split('::')[1:]
        own = r'\.'.join([*above, r'\+?' + name])
        refused = re.findall(r'`Rattle\.%s\.proofs\.%s\.(?:\w+\.)?([^.`]+)`' % (crate, own), told)
        folder = '/'.join(['proofs', *above])
        own_error = re.compile(r'(?:\./)?%s/(?:\+?%s/\w+\.antt:\d+:\d+: error|\+\w+/\w+\.antt:\d+:\d+: error: `%s-)'
                               % (folder, name, name))
        errors = [it for it in self.lines if own_error.match(it)]
        refused += re.findall(r'error: `([^`]*)`', '\n'.join(errors))
        if not told.startswith('not proved') or not (refused or errors):
            return None
        is_real = not errors or any(not VANISHED.search(it) for it in errors)
        what = is_real and (BY_GOAL if self.not_found & {*errors} else BY_PROOF)
        return '`%s`' % refused[0] if refused else errors[0], what or None

    def judge(self, mutant, is_alone):
        """What refuses a mutant, and the words for it: '' where nothing does as it must, None where no refusal names it."""
        paths = [it for it in self.told if any(function.is_at(it[0]) for function in mutant.functions)]
        if mutant.functions and not paths:
            return '', 'the check has no line of the function that it changes'
        found = [(it[0], self.refusal(mutant.crate.name, *it)) for it in (paths or self.told if is_alone else paths)]
        found = [(path, it) for path, it in found if it]
        if not found:
            return None, ''
        path, (goal, what) = next((it for it in found if it[1][1]), found[0])
        spent = self.spent.get(path, 0)
        for it in mutant.functions:
            path = re.sub(r'\b%s$' % it.name, it.origin.name, path)
        if not what:
            return '', 'a proof of %s names what it removed, so no contract was tried: keep the names' % path
        return what, '%s, %s, %.1f s' % (path, goal, spent)


def is_of_tactic(line, room):
    """Whether this line of a check tells that no proof was found by a tactic that is a whole written proof."""
    found = NOT_FOUND.search(line)
    if not found:
        return False
    lines = (rtlib.text_of('%s/%s.antt' % (room, line[:found.start()])) or '').split('\n')[:int(found[1])]
    return bool(WHOLE_PROOF.search('\n'.join([*lines[:-1], lines[-1][:int(found[2]) - 1]])))


def await_room():
    """Waits until twice what a check takes is free, since the gate proves all crates beside these checks; ten minutes at most."""
    with STARTING:
        end = time.time() + 600
        while (rt.free() < 2 * MEMORY or shutil.disk_usage(tempfile.gettempdir()).free < 2 * DISK) and time.time() < end:
            time.sleep(1)


def rattle(crate, folder, flags):
    """What a check says, and the seconds that each function took, but for its offers of files to write a proof in: they take up to
    a half of it, and say nothing of what is refused."""
    stages = '%s/stages' % folder
    words = ['check', *crate.words(['--jobs', '1'], keeps=False), '--incremental', folder + '/kept', '--allow-holes', '--progress',
             '--stage-times', stages, *flags]
    with subprocess.Popen([*GUARD, rtlib.RATTLE, *words], cwd=folder, stdin=subprocess.DEVNULL, stdout=subprocess.PIPE,
                          stderr=subprocess.STDOUT, text=True, errors='replace') as ran, ThreadPoolExecutor(1) as beside:
        heard = beside.submit(hear, ran.stdout)
        while not re.search(r'(?m)^stage lines ', rtlib.text_of(stages) or '') and not wait([heard], 0.1).done:
            pass
        # It has put together all that it says of the functions; without a file more it makes no offers.
        with contextlib.suppress(OSError):
            resource.prlimit(ran.pid, resource.RLIMIT_NOFILE, (3, 3))
        said = heard.result()
        _, status, used = os.wait4(ran.pid, 0)
        ran.returncode = os.waitstatus_to_exitcode(status)
    TOOK.setdefault(crate.name, []).append(used.ru_utime + used.ru_stime)
    return said


def hear(lines):
    """What a check says, but for its lines of progress, and the seconds that these tell of each function."""
    said, spent, last = [], {}, time.time()
    for line in lines:
        done = DONE.match(line)
        if done:
            spent[done[1]], last = time.time() - last, time.time()
        else:
            said.append(line)
    return ''.join(said), spent


def check(mutants, begun, by_answers=False):
    """What the check says of their crate with these mutants, those that are not in it, and those that written proofs alone can refuse
    in it. It passes over what these mutants do not change. It begins with the work of the crate's check that ended first, in a folder that
    is there since then, if one did."""
    await_room()
    crate = mutants[0].crate
    with tempfile.TemporaryDirectory(prefix='sgb-mutants-') as room:
        left, opened = lay(crate, mutants, room, by_answers)
        begin(begun, room + '/kept')
        changed = {path for it in mutants for path in it.texts}
        paths = [it.path() for mutant in mutants for it in mutant.functions] if all(it.functions for it in mutants) else []
        said = Said(*rattle(crate, room, [word for it in paths for word in ('--only', it)]), changed, room)
        if paths and not said.told:
            # (a path fits several functions, say: then all are checked)
            said = Said(*rattle(crate, room, []), changed, room)
        begin(room + '/kept', begun)
        return said, left, opened


def begin(work, to):
    """Gives a folder the work of another one, in links that a check replaces, so that no mutant meets what another one left; none where
    there is none yet, or where it has some."""
    with contextlib.suppress(OSError), tempfile.TemporaryDirectory(dir=os.path.dirname(to)) as room:
        if os.path.isdir(work) and not os.path.isdir(to):
            shutil.copytree(work, room + '/kept', copy_function=link)
            os.rename(room + '/kept', to)


def link(file, to):
    """Lets another name stand for a file, or a copy of it where that is on another disk."""
    try:
        os.link(file, to)
    except OSError:
        shutil.copy2(file, to)


def try_alone(mutant, begun):
    said, _, _ = check([mutant], begun)
    if said.unread:
        return '', 'it cannot be read, so no contract was tried: ' + said.unread[:200]
    what, why = said.judge(mutant, True)
    if what is None:
        could_tell = not any('could not tell' in told for _, told in said.told)
        why = 'NOT REFUSED: the contract allows it' if could_tell else 'antt could not tell'
    return what or '', why


def try_group(mutants, begun, by_answers=False):
    """Tries the mutants of a group, and returns what came of each: of one that written proofs alone could refuse, and did not, None."""
    if len(mutants) == 1 and not (by_answers and mutants[0].functions):
        return {mutants[0]: try_alone(mutants[0], begun)}
    said, left, opened = check(mutants, begun, by_answers)
    found = {}
    if said.unread:
        halves = [mutants[:len(mutants) // 2], mutants[len(mutants) // 2:]]
    else:
        judged = {it: said.judge(it, False) for it in mutants if it not in left}
        found = {it: told for it, told in judged.items() if told[0]}
        found.update({it: (None, '') for it in opened if it not in found})
        halves = [[it] for it in mutants if it not in found]
    for half in filter(None, halves):
        found.update({half[0]: try_alone(half[0], begun)} if len(mutants) == 1 else try_group(half, begun))
    return found


def try_unchanged(mutants, begun):
    """Tries the copies of the functions of a group with the bodies that these have, and returns what came of each as `try_group`."""
    for it in mutants:
        it.texts = {path: rtlib.text_of('%s/%s' % (it.crate.folder, path)) for path in it.texts}
    said, _, _ = check(mutants, begun, by_answers=True)
    judged = {it: said.judge(it, is_alone=False) for it in mutants}
    return {it: ('', 'REFUSED with the body of its function: ' + (said.unread or why)) if said.unread or what is not None
            else ('nothing', 'its copy is proved') for it, (what, why) in judged.items()}


def prove(crate):
    """Proves a crate over its kept work, and those below it, and returns whether it is proved."""
    ran = subprocess.run(['rt', 'check'], cwd=crate.folder, stdin=subprocess.DEVNULL, stdout=subprocess.PIPE, stderr=subprocess.STDOUT,
                         text=True, errors='replace')
    is_proved = ran.returncode == 0 and re.search(r'(?m)^logic=proved ', ran.stdout)
    if not is_proved:
        print('\n'.join(re.findall(r'(?m)^.*(?:\berror(?:\[|:)|: not proved|: no proof|: could not tell).*$', ran.stdout)[:6]))
    return bool(is_proved)


class Named:
    """Names that come on a file, one a line."""

    def __init__(self, file):
        self.names, self.has_ended, self.more = set(), False, threading.Condition()
        threading.Thread(target=self.read, args=[file], daemon=True).start()

    def read(self, file):
        for line in itertools.chain(file, [None]):
            with self.more:
                self.names.add((line or '').strip())
                self.has_ended = line is None
                self.more.notify_all()

    def await_name(self, name):
        """Whether the name comes."""
        with self.more:
            self.more.wait_for(lambda: self.has_ended or name in self.names)
            return name in self.names


def workers():
    """How many checks run side by side: RT_JOBS where it is set, else one a processor."""
    jobs = os.environ.get('RT_JOBS', '')
    return int(jobs) if jobs.isdigit() and int(jobs) else rt.processors()


class Run:
    """A run over crates: its flags, the checks side by side, and how many mutants were refused by what, and how many were not."""

    def __init__(self, flags):
        self.flags, self.lanes = flags, ThreadPoolExecutor(workers())
        self.proved = Named(sys.stdin) if '--as-proved' in flags else None
        self.counts, self.telling, self.proving = Counter(), threading.Lock(), threading.Lock()

    def tell(self, what, label, why):
        """Counts a mutant, and prints what refused it, if anything did and that is asked for, or why it fails."""
        with self.telling:
            self.counts[what] += 1
            if '-v' in self.flags or not what:
                print('%s: %s%s' % (label, 'refused by %s: ' % what if what else '', why), flush=True)

    def make_ready(self, crate):
        """Proves a crate, or waits until another run has proved those below it; returns whether that is done."""
        if self.proved:
            return all(self.proved.await_name(it.name) for it in crate.below())
        with self.proving:
            return prove(crate)

    def try_mutants(self, mutants, begun):
        """Tries mutants of a crate, and returns what came of each."""
        if '--unchanged' in self.flags:
            tried = [self.lanes.submit(try_unchanged, it, begun) for it in groups_of([it for it in mutants if it.is_beside])]
            return {mutant: told for it in tried for mutant, told in it.result().items()}
        tried = [self.lanes.submit(try_group, it, begun, True) for it in groups_of(mutants)]
        found = {mutant: told for it in tried for mutant, told in it.result().items()}
        # What no written proof refused is tried again, now by all goals.
        left = groups_of([mutant for mutant, (what, _) in found.items() if what is None])
        for it in [self.lanes.submit(try_group, it, begun) for it in left]:
            found.update({mutant: (what, why + ', by no answer' * bool(what)) for mutant, (what, why) in it.result().items()})
        return found

    def try_crate(self, crate, files):
        """Tries the mutants of a crate once it is ready, and prints a line of it."""
        mutants, unread = mutants_of(crate, files)
        for it in unread:
            self.tell('', it, 'no mutant: those are named FUNCTION-what_is_wrong.edit')
        for it in [it for it in mutants if it.why]:
            self.tell('', it.label, it.why)
        good = [it for it in mutants if not it.why and not (self.proved and it.is_full)]
        is_ready = not good or self.make_ready(crate)
        # (a check needs no proof of the crate itself, so it does not wait for another run's)
        with tempfile.TemporaryDirectory(prefix='sgb-mutants-') as room:
            tried = self.try_mutants(good, room + '/begun') if is_ready else {}
        if good and not (is_ready and (not self.proved or self.proved.await_name(crate.name))):
            self.tell('', crate.name, 'the crate is not proved, so its %d mutants show nothing' % len(good))
            return
        for mutant, (what, why) in sorted(tried.items(), key=lambda it: it[0].label):
            self.tell(what, mutant.label, why)
        if mutants or unread:
            counts, took = Counter(what for what, _ in tried.values()), TOOK.get(crate.name, [])
            laid = sum(not it.why for it in mutants) - len(good)
            with self.telling:
                print('%s: of %d mutants %s, by %d checks of %.0f s of processor, the longest of %.0f s%s'
                      % (crate.name, len(mutants) + len(unread) - laid, told_of(counts), len(took), sum(took), max(took, default=0),
                         '; %d more can be laid' % laid if laid else ''), flush=True)

    def try_all(self, crates, files):
        """Tries the mutants of the crates, lowest first, or as those below them are proved."""
        with ThreadPoolExecutor(max(1, len(crates))) as each:
            started = [each.submit(self.try_crate, crate, [it for it in files if it.startswith(crate.folder + '/')])
                       for crate in crates]
            # What stops one of them stops the run, so that no crate is passed over.
            for it in started:
                it.result()


def told_of(counts):
    """How many mutants were refused by what."""
    return ', '.join('%d refused by %s' % (counts[it], it) for it in [BY_GOAL, BY_PROOF, *['nothing'] * bool(counts['nothing'])])


def main():
    flags = [it for it in sys.argv[1:] if it.startswith('-')]
    words = [it for it in sys.argv[1:] if not it.startswith('-')]
    files = [os.path.abspath(it) for it in words if it.endswith('.edit')]
    names = [it for it in words if not it.endswith('.edit')]
    global GUARD
    GUARD = rtlib.guarded()
    crates = sorted(rtlib.crates_below(os.getcwd()), key=lambda it: len(it.below()))
    run = Run(flags)
    for it in sorted({*names} - {it.name for it in crates}):
        run.tell('', it, 'no crate has this name')
    run.try_all([it for it in crates if not words or it.name in names
                 or any(file.startswith(it.folder + '/') for file in files)], files)
    passed = sum(run.counts.values()) - run.counts['']
    print('mutants: %s' % told_of(run.counts))
    print('mutants: %d passed, %d failed' % (passed, run.counts['']))
    return 1 if run.counts[''] else 0


if __name__ == '__main__':
    sys.exit(main())
