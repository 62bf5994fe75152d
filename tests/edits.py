"""Wrong edits, tried on a copy of the repository by `rt must-fail` and `rt check`; for the tests that ask whether, and where, the prover refuses each."""
import fcntl
import glob
import os
import re
import shutil
import subprocess
import sys

ROOT = os.path.dirname(os.path.dirname(os.path.abspath(__file__)))
# One processor is left to the test that runs beside.
JOBS = dict(os.environ, RT_JOBS=str(max(1, len(os.sched_getaffinity(0)) - 1)))


def text(path):
    with open(path, encoding='utf-8') as f:
        return f.read()


def edits_of(crate, kind):
    return sorted(os.path.basename(path)[:-5] for path in glob.glob(os.path.join(ROOT, 'crates', crate, kind, '*.edit')))


def linked(one, other):
    """What rt keeps in out/ gets a second name: rt replaces such a file and never writes into it."""
    try:
        os.link(one, other)
    except OSError:
        shutil.copy2(one, other)


def copied(room, kind):
    """The crates as they stand, with what was proved of them, each while no other command works in it; as their must-fail edits those of this folder."""
    shutil.copy(os.path.join(ROOT, 'crates.txt'), room)
    if os.path.exists(os.path.join(ROOT, 'HANDLES')):
        shutil.copy(os.path.join(ROOT, 'HANDLES'), room)
    for crate in sorted(os.listdir(os.path.join(ROOT, 'crates'))):
        own, to = os.path.join(ROOT, 'crates', crate), os.path.join(room, 'crates', crate)
        working = os.open(own, os.O_RDONLY)
        fcntl.flock(working, fcntl.LOCK_SH)
        for part in ('src', 'specs', 'proofs'):
            if os.path.isdir(os.path.join(own, part)):
                shutil.copytree(os.path.join(own, part), os.path.join(to, part))
        for part in ('out/incremental', 'out/rlib'):
            if os.path.isdir(os.path.join(own, part)):
                shutil.copytree(os.path.join(own, part), os.path.join(to, part), copy_function=linked)
        if os.path.isdir(os.path.join(own, kind)):
            shutil.copytree(os.path.join(own, kind), os.path.join(to, 'must-fail'))
        os.close(working)


def run(words, folder):
    r = subprocess.run(words, cwd=folder, env=JOBS, stdin=subprocess.DEVNULL, stdout=subprocess.PIPE, stderr=subprocess.STDOUT, text=True, errors='replace')
    return r.returncode, r.stdout


def proved(room, crate):
    """Whether the prover admits the crate as it stands in the copy; its last words where not."""
    status, said = run(['rt', 'check'], os.path.join(room, 'crates', crate))
    return status == 0 and re.search(r'^logic=proved', said, re.M) is not None, ' '.join(said[-300:].split())


def tried(room, crate):
    """What `rt must-fail` says of each edit of the crate: refused or not, its words, and the first place that it names."""
    said, found = run(['rt', 'must-fail', crate], room)[1], {}
    for edit, words in re.findall(r'^rt: must-fail %s/(\S+)\.edit: (.*)$' % crate, said, re.M):
        good = re.match(r'refused, as it must be(?:: |$)', words)
        words = words[good.end():] if good else words
        found[edit] = bool(good), words, place(os.path.join(room, 'crates', crate), words) if good else []
    return found, ' '.join(said[-300:].split())


def place(folder, line):
    """What a line of the prover's refuses: a law by its name, a need as its function and its name; nothing where it names neither."""
    law = re.match(r'(?:\./)?proofs/(?:\S+/)?(\w+)/(?:Proof|Answers|Invariants)\.antt:\d+:\d+: error: `([^`]+)`', line)
    if law:
        return [law[1], law[2]]
    law = re.match(r'(?:\./)?\S+\.antt:\d+:\d+: error: `([^`]+)`', line)
    if law:
        return [law[1]]
    need = re.match(r'note: (?:\./)?(src/\S+?):(\d+):(\d+): (?:.*?\(`([^`]+)`\))?', line)
    return [function_at(os.path.join(folder, need[1]), int(need[2]), int(need[3]))] + ([need[4]] if need[4] else []) if need else []


def function_at(path, row, column):
    """The function of a place: a promise is placed where its function begins, a need of the body below that."""
    rows = [(n, m[1]) for n, line in enumerate(text(path).splitlines(), 1) for m in [re.match(r'\s*(?:pub(?:\(\w+\))? )?(?:const )?(?:unsafe )?(?:extern "C" )?fn (\w+)', line)] if m]
    above, below = [name for n, name in rows if n <= row], [name for n, name in rows if n >= row]
    return (below or above)[0 if below else -1] if column == 1 else (above or below)[-1 if above else 0]


def every_place(room, crate, edit):
    """All that the prover refuses of the crate with an edit, in its order; what it refuses for something else that it refused is left out."""
    folder, kept = os.path.join(room, 'crates', crate), {}
    at = old = None
    try:
        for line in text(os.path.join(folder, 'must-fail', edit + '.edit')).splitlines():
            if line.startswith('file: '):
                at = os.path.join(folder, line[6:].strip())
            elif line.startswith('old: '):
                old = line[5:]
            elif line.startswith('new:'):
                words = text(at)
                kept.setdefault(at, words)
                with open(at, 'w', encoding='utf-8') as f:
                    f.write(words.replace(old, re.sub(r'\A ', '', line[4:])))
        said = run(['rt', 'check'], folder)[1]
        return [found for line in said.splitlines() if 'was not admitted' not in line for found in [place(folder, line)] if found]
    finally:
        for at, words in kept.items():
            with open(at, 'w', encoding='utf-8') as f:
                f.write(words)


def count(said):
    print('%d passed, %d failed' % (said[True], said[False]))
    sys.exit(said[False] != 0 or not said[True])
