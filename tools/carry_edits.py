#!/usr/bin/env python3
"""carry_edits.py [COMMIT]: brings the must-fail edits to the text that port.py and tools/respell.py made.

Run at the top of the checkout in which both have run; COMMIT (HEAD, unless it is named) is the one that they ran on, with the edits in the
older spelling. In a scratch copy of that commit each edit is applied, and each file that it changes is saved under a name of its own beside
the file it changes. Then the two scripts turn the scratch copy, changed files and all, and each edit is written anew as what the turned
changed file has in place of the turned file: so an edit keeps its meaning by the very rules that turned the text. An edit keeps its name,
its comment and the order of its files.

Parts that changed the proof of a function (proofs/F/Proof.antt) helped an older proof and are left out; they are listed. So are the pairs
that could not be made and those that do not fit the text that stands in this checkout."""
import collections, difflib, glob, importlib.util, os, re, runpy, shutil, subprocess, sys, tempfile

TOOLS = os.path.dirname(os.path.abspath(__file__))
WIDE = 160


def git(*words, where='.'):
    return subprocess.run(['git', *words], cwd=where, check=True, capture_output=True, text=True).stdout


def kit():
    """The folder of the installed Rattle."""
    return os.path.dirname(subprocess.run(['rt', 'doc'], check=True, capture_output=True, text=True).stdout.split()[0])


class Part:
    """What an edit does to one file."""

    def __init__(self, path):
        self.path, self.pairs, self.copy = path, [], None


def comment(line, names, known):
    """A line of an edit's comment with today's names: those that respell.py turns in comments, and names of laws with hyphens."""
    line = names['turn_said'](line)
    return re.sub(r"(?<![\w-])[a-z]+(?:-[a-z0-9]+)+(?![\w-])", lambda m: names['new'](m.group(0)) if m.group(0) in known else m.group(0), line)


def read(text):
    said, parts, old = [], [], None
    for l in text.split('\n'):
        if l.startswith('file: '):
            path = l[len('file: '):].strip()
            part = next((p for p in parts if p.path == path), None)
            if not part:
                part = Part(path)
                parts.append(part)
        elif l.startswith('old: '):
            old = l[len('old: '):]
        elif l.startswith('new:'):
            part.pairs.append((old, l[len('new:'):].removeprefix(' ')))
        elif l.strip():
            said.append(l)
    return said, parts


def is_function_proof(path):
    return path.endswith('/Proof.antt')


def scratch(commit, top):
    """Returns the edits, and the scratch copy with the files they change, not turned yet."""
    root = os.path.join(top, 'kelprath')
    git('clone', '-q', '--no-checkout', '.', root)
    git('checkout', '-q', commit, where=root)
    edits = []
    for path in sorted(glob.glob(os.path.join(root, 'crates/*/must-fail/*.edit'))):
        said, parts = read(open(path, encoding='utf-8').read())
        crate = os.path.dirname(os.path.dirname(path))
        number = len(edits) + 1
        for part in parts:
            text = open(os.path.join(crate, part.path), encoding='utf-8').read()
            for old, new in part.pairs:
                assert text.count(old) == 1, (path, old)
                text = text.replace(old, new)
            if is_function_proof(part.path):
                continue
            stem, end = os.path.splitext(part.path)
            part.copy = f'{stem}__e{number}{end}'
            with open(os.path.join(crate, part.copy), 'w', encoding='utf-8') as f:
                f.write(text)
        edits.append((os.path.relpath(path, root), said, parts))
    git('rm', '-rq', *glob.glob('crates/*/must-fail', root_dir=root), where=root)
    git('add', '-A', where=root)
    git('-c', 'user.name=carry', '-c', 'user.email=carry@localhost', 'commit', '-qm', 'the files that the edits change', where=root)
    return edits, root


def turn(root, top):
    """Runs port.py and respell.py in the scratch copy; returns respell.py's names."""
    spec = importlib.util.spec_from_file_location('port', os.path.join(kit(), 'port', 'port.py'))
    port = importlib.util.module_from_spec(spec)
    spec.loader.exec_module(port)
    port.SAID = os.path.join(top, 'port-said')
    if port.turn(root):
        raise SystemExit('port.py failed')
    here, argv = os.getcwd(), sys.argv
    sys.argv = ['respell.py', root]
    try:
        return runpy.run_path(os.path.join(TOOLS, 'respell.py'))
    finally:
        sys.argv = argv
        os.chdir(here)


USE = re.compile(r'^[ \t]*(?:pub )?((?:ghost )?use) ([\w.]+?)(?:\.\{([^}]*)\}|::\{([^}]*)\}|( as [^;\n]*))?;?[ \t]*$', re.M)


ALIAS = re.compile(r'^(?:ghost )?use [\w.]+ as [^;\n]*', re.M)


def imports(text):
    """What a text imports, in order: (word, path) and the names of it."""
    found = collections.OrderedDict()
    for m in USE.finditer(text):
        if m.group(3) is not None:
            found.setdefault((m.group(1), m.group(2)), []).extend(n.strip() for n in m.group(3).split(',') if n.strip())
    return found


def without_imports(text):
    return [l for l in USE.sub('', text).split('\n') if l.strip()]


def groups(lines):
    """The lines with those that go on from them: a line that starts at the margin begins anew."""
    out = []
    for l in lines:
        if out and l[:1] == ' ' and out[-1][0].strip() and not out[-1][0].startswith(('--', '//')):
            out[-1].append(l)
        else:
            out.append([l])
    return out


def laid(old, new):
    """The changed lines in as many lines as the old ones, or None."""
    if len(old) == len(new):
        return new
    if not new:
        return [''] * len(old)
    if len(old) == 1:
        return [new[0] + ''.join(' ' + l.strip() for l in new[1:])]
    a, b = groups(old), groups(new)
    if 1 < len(a) == len(b):
        made = [laid(x, y) for x, y in zip(a, b)]
        return None if None in made else sum(made, [])
    return None


def hunks(base, changed):
    """Pairs of lines that differ, and the hunks that give none."""
    pairs, left = [], []
    for tag, a, b, c, d in difflib.SequenceMatcher(None, base, changed, autojunk=False).get_opcodes():
        if tag == 'equal':
            continue
        if tag == 'insert':
            a, c = a - 1, c - 1
        old, new = base[a:b], changed[c:d]
        made = laid(old, new)
        if made is None:
            left.append((' '.join(old), ' '.join(new)))
        else:
            pairs += [(o, n) for o, n in zip(old, made) if o != n]
    return pairs, left


def squeezed(text):
    return re.sub(r',(?=[])}])', '', re.sub(r'\s+', '', text))


def verbatim(part, base, changed):
    """Whether the edit's own pairs, as they are, make the changed text."""
    for old, new in part.pairs:
        if base.count(old) != 1 or re.search(r'[\w)] \.\w', new):
            return False
        base = base.replace(old, new)
    return squeezed(base) == squeezed(changed)


def shrink(old, new, text):
    """The pair with no more of the line than a reader needs, for lines that are wide."""
    indent = len(old) - len(old.lstrip())
    if new[:indent].strip() == '' and text.count(old.strip()) == 1:
        old, new = old[indent:], new[indent:]
    old2 = old.rstrip()
    if text.count(old2) == 1 and len(old2) <= WIDE:
        return old2, new.rstrip()
    if text.count(old) != 1 or len(old) <= WIDE:
        return old, new
    cuts = [m.start() for m in re.finditer(r'(?<=\s)\S|^', old)] + [len(old)]
    head = len(os.path.commonprefix([old, new]))
    tail = min(len(os.path.commonprefix([old[::-1], new[::-1]])), min(len(old), len(new)) - head)
    i = max(k for k, c in enumerate(cuts) if c <= head)
    j = min(k for k, c in enumerate(cuts) if c >= len(old) - tail)
    j = max(j, i + 1)
    while True:
        o = old[cuts[i]:cuts[j]].strip()
        if text.count(o) == 1 and len(o) >= 40 or (i == 0 and j == len(cuts) - 1):
            break
        i, j = max(i - 1, 0), min(j + 1, len(cuts) - 1)
    a, b = cuts[i], len(old[:cuts[j]].rstrip())
    return old[a:b], new[a:len(new) - (len(old) - b)]


def fit(pairs, text):
    """Orders the pairs so that each stands once when its turn comes; returns those that never do."""
    done, wait = [], list(pairs)
    while wait:
        fits = []
        for k, (old, new) in enumerate(wait):
            if text.count(old) == 1:
                o, n = shrink(old, new, text)
                after = text.replace(o, n)
                spoils = sum(text.count(x) == 1 != after.count(x) for i, (x, _) in enumerate(wait) if i != k)
                fits.append((spoils, k, o, n))
        if not fits:
            break
        spoils, k, o, n = min(fits)
        if spoils:
            # two lines that change places: one more space keeps them apart
            n = re.sub(r'(?<=\S) (?=\S)', '  ', n, count=1)
        text = text.replace(o, n)
        done.append((o, n))
        del wait[k]
    return done, wait, text


# the modules that the library's words come from
WORDS = ('mathlib.Core.Bool', 'mathlib.Core.List', 'mathlib.Core.Path', 'Prim.Native.Nat', 'lib.Dec', 'lib.ListN')
PRELUDE = 'Rattle.std.specs.Prelude'


def more_imports(base, changed, stands):
    """Pairs that add to the text as it stands today what the changed text imports and the base does not; and what has no place."""
    had = {n for ns in imports(base).values() for n in ns} | {n for ns in imports(stands).values() for n in ns}
    out, lost = collections.OrderedDict(), [m.group(0) for m in ALIAS.finditer(changed) if m.group(0) not in base]
    for (word, module), ns in imports(changed).items():
        for n in ns:
            if n in had:
                continue
            old, _, other = n.partition(' as ')
            line = re.search(rf'^{word} {re.escape(module)}\.\{{.*\b{other}\b.*$', stands, re.M) if other else None
            if line:
                # another thing under a name that the text has
                out[line.group(0)] = [re.sub(rf'\b{other}\b', n, line.group(0))]
                continue
            heads = [f'{word} {m}.{{' for m in ([module] + [PRELUDE] * (module in WORDS))]
            head = next((h for h in heads if stands.count(h) == 1), None)
            if head:
                out.setdefault(head, []).append(n)
            else:
                lost.append(f'{word} {module} {n}')
    return [(h, ns[0] if ns[0].startswith(h[:h.index('.{')]) else h + ', '.join(ns) + ', ') for h, ns in out.items()], lost


def main():
    commit = sys.argv[1] if len(sys.argv) > 1 else 'HEAD'
    keep = os.environ.get('CARRY_SCRATCH')
    top = keep or tempfile.mkdtemp(prefix='carry-')
    os.makedirs(top, exist_ok=True)
    edits, root = scratch(commit, top)
    names = turn(root, top)
    known = {m.group(1) for t in names['old'].values() for m in re.finditer(r"^ *(?:pub |pattern |unfoldable )*([a-z]+(?:-[a-z0-9]+)+) [^=\n]*:", t, re.M)}
    count = collections.Counter()
    for path, said, parts in edits:
        crate = os.path.dirname(os.path.dirname(path))
        lines = [comment(l, names, known) for l in said]
        count['edits'] += 1
        clean = True
        for part in parts:
            where = f'{path}: {part.path}'
            if part.copy is None:
                print('left out:', where)
                count['left out'] += 1
                continue
            base = open(os.path.join(root, crate, part.path), encoding='utf-8').read()
            changed = open(os.path.join(root, crate, part.copy), encoding='utf-8').read()
            stands = open(os.path.join(crate, part.path), encoding='utf-8').read()
            if verbatim(part, base, changed):
                done = part.pairs
                out = []
            else:
                out, lost = more_imports(base, changed, stands)
                for l in lost:
                    print('import by hand:', where, '|', l)
                    clean = False
                b, c = without_imports(base), without_imports(changed)
                pairs, lost = hunks(b, c)
                done, wait, made = fit(pairs, '\n'.join(b) + '\n')
                for o, n in lost + wait:
                    print('by hand:', where, '|', o, '|', n)
                    clean = False
                if squeezed(made) != squeezed('\n'.join(c)):
                    print('differs:', where)
                    clean = False
                if not done and not out:
                    print('no change:', where)
                    clean = False
            count['pairs'] += len(done) + len(out)
            if not done and not out:
                continue
            lines.append('file: ' + part.path)
            text = stands
            for o, n in out + done:
                lines += ['old: ' + o, 'new: ' + n if n else 'new:']
                if text.count(o) == 1:
                    text = text.replace(o, n)
                else:
                    print('does not fit today:', where, '|', text.count(o), o)
                    clean = False
        count['clean'] += clean
        with open(path, 'w', encoding='utf-8') as f:
            f.write('\n'.join(lines) + '\n')
    print(dict(count))
    if not keep:
        shutil.rmtree(top)


if __name__ == '__main__':
    main()
