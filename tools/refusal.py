# What the kit says of a wrong program: the first error, and whether it is for a fact, for a bound or only for a shape.
# Read by `tools/check-edits` and `tools/sweep`.
import os
import re
import shutil
import tempfile

import kit

# The goals of a function that ask whether it is safe and ends, whatever its outcome: that an operation doesn't wrap, a divisor is not 0, an index or a
# part is within, what a callee asks for, that a measure falls. What it returns, what a loop keeps, and lemmas are facts about the outcome.
BOUND = re.compile(r'(?!returns)((overflow_|nonzero_|bounds-|slice_bounds-|offset_bounds-).*|.*-(requires|smaller)(-.*)?)')

# An edit that left the proof files unfit for the code shows nothing.
SHAPE = re.compile(r'only because a proof file names|has no `|has no field|is not in scope|was not admitted|unknown|cannot find|expected one of|mismatched types')


def errors_of(log):
    """The lines that say what fails: what a file is refused for, and the goals that are open in the code."""
    return [l for l in log.split('\n') if re.match(r'\S+:\d+:\d+: error|note: \S+:\d+:\d+: .*not proved|error', l)]


def first_error(lines):
    """The first of them that says more than that a proof file no longer fits the code, where there is one."""
    return next((l for l in lines if not SHAPE.search(l)), lines[0] if lines else '')


def each_of(edit):
    """The functions that an edit makes wrong, each by itself: its first line starts 'Each of F, G: '. Else nothing."""
    named = re.match(r'Each of ([\w:, ]+): ', open(edit, encoding='utf-8').readline())
    return [name.strip() for name in named.group(1).split(',')] if named else []


def of_function(line, name, copy):
    """Whether a line of a log is about this function: it names a place in its proof or, where the goal has no answer, in its code."""
    *folders, last = name.split('::')
    if re.search('/'.join(['proofs', *folders, rf'\+?{last}/(Proof|Answers|Invariants)\.antt:']), line):          # '+' where functions call each other
        return True
    place = re.search(r'\b(src/\S+\.rt):(\d+):', line)
    if not place:
        return False
    lines, n = open(f'{copy}/{place.group(1)}', encoding='utf-8').read().split('\n'), int(place.group(2))
    while re.match(r'\s*(#\[|//)', lines[n - 1]):          # a function begins at its attributes
        n += 1
    head = lines[:n]
    within = [m.group(1) for l in head for m in [re.search(r'^\s*(?:pub(?:\(crate\))? )?(?:extern "C" )?fn (\w+)', l)] if m]
    owner = [m.group(1) for l in head for m in [re.search(r'^(?:impl (\w+)|\})', l)] if m]
    return [last] == within[-1:] and (not (owner and owner[-1]) or owner[-1] in folders)


def errors(edit, log, copy):
    """The errors that count, of the wrong program in the folder `copy`: the first, or where the edit is about several functions the first of each,
    nothing where there is none."""
    lines = errors_of(log)
    return [first_error([l for l in lines if of_function(l, name, copy)]) for name in each_of(edit)] or [first_error(lines)]


def goal(error):
    """The name of the goal, or of the definition in a proof file, that an error is about: cut where the error is."""
    name = re.search(r'\.rt:\d+:\d+: .*?\(`([^`]+)', error) or re.search(r'\.antt:\d+:\d+: (?:error: )?`([^`]+)', error)
    return name.group(1) if name else ''


def kind(error):
    """'fact', 'bound' or 'shape'; nothing where there is no error."""
    if SHAPE.search(error):
        return 'shape'
    if re.search(r'\.rt:|/(Answers|Proof)\.antt:', error) and BOUND.fullmatch(goal(error)):
        return 'bound'
    return 'fact' if error else ''


def about_bound(edit):
    """Whether a bound is what the edit is about: its first line starts with 'Bound', and says which."""
    return open(edit, encoding='utf-8').readline().startswith('Bound')


def pairs(edit):
    """The replacements of an edit: the file, the function or definition that an 'in:' line names (or none), the old text and the new."""
    f = within = old = None
    for line in open(edit, encoding='utf-8').read().split('\n'):
        if line.startswith('file: '):
            f, within = line[6:], None
        elif line.startswith('in: '):
            within = line[4:]
        elif line.startswith('old: '):
            old = line[5:]
        elif line.startswith('new:'):
            yield f, within, old, line[4:].removeprefix(' ')


def whole(path, text, within):
    """The part of a file in which an old text has to stand once: all of it."""
    return 0, len(text)


def applied(crate, edit, copy, span=whole):
    """Applies an edit to a copy of its crate, and returns why it cannot be, or nothing."""
    for f, within, old, new in pairs(edit):
        path = f'{copy}/{f}'
        text = open(path, encoding='utf-8').read() if os.path.exists(path) else ''
        start, end = span(path, text, within) if text else (0, 0)
        if text.count(old, start, end) != 1:
            return f"an 'old:' text stands {text.count(old, start, end)} times in {within or f}"
        open(path, 'w', encoding='utf-8').write(text[:start] + text[start:end].replace(old, new) + text[end:])
    return ''


def linked(one, other):
    """A check replaces what an earlier one kept, and writes into no such file: so a copy shares it."""
    try:
        return os.link(one, other) if one.endswith('.oantt') else shutil.copy2(one, other)
    except OSError:
        return shutil.copy2(one, other)


def tried(crate, edit, span=whole, jobs=2):
    """Checks the crate with this edit, over what its own check kept. An edit that makes several functions wrong is checked at these alone. Returns the exit
    status, what was said, and the errors that count; with no status why the edit cannot be applied."""
    kept = f'{kit.ROOT}/crates/{crate}/out/incremental'
    beside = os.path.dirname(kept) if os.path.isdir(kept) else None          # on the same disk
    with tempfile.TemporaryDirectory(prefix='edit-') as copy, tempfile.TemporaryDirectory(prefix='edit-', dir=beside) as room:
        for part in ('src', 'specs', 'proofs'):
            if os.path.isdir(f'{kit.ROOT}/crates/{crate}/{part}'):
                shutil.copytree(f'{kit.ROOT}/crates/{crate}/{part}', f'{copy}/{part}')
        why = applied(crate, edit, copy, span)
        if why:
            return None, why, []
        more = [word for name in each_of(edit) for word in ('--only', name)]
        if beside:
            shutil.copytree(kept, f'{room}/kept', copy_function=linked)
            more += ['--incremental', f'{room}/kept']
        root = 'src/main.rt' if os.path.exists(f'{copy}/src/main.rt') else 'src/lib.rt'
        status, said = kit.rattle('check', crate, kit.crates()[crate], copy, *more, root=root, jobs=jobs)
        return status, said, errors(edit, said, copy)
