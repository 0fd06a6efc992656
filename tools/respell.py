#!/usr/bin/env python3
"""respell.py [ROOT]: brings the repository's own definitions and lemmas to the library's spelling, once, right after port.py and before
its changes are committed.

Words are in snake case (`halvesOf`, `front-more` become `halves_of`, `front_more`); types and modules keep their capitals. What other
libraries name keeps its spelling, and so do names of src/, the parts of names that the check makes (`invariant-loop`), strings and prose.
Where a lemma and a definition that one file speaks of would fall together, as `same-message` and `sameMessage`, the lemma gets `_lem`: the
old spelling is read in HEAD, line by line, since port.py has turned some of these names already."""
import collections, os, re, subprocess, sys

os.chdir(sys.argv[1] if len(sys.argv) > 1 else '.')
own = {l.split(':')[0].strip() for l in open('crates.txt') if ':' in l}
WORD = re.compile(r"(?<![\w'·≡≢≤⊎′-])[a-z][A-Za-z0-9_]*(?:-[A-Za-z0-9_]+)*['′]*(?![\w'·≡≢≤⊎-])")
MADE = re.compile(r"^(invariant|decreases)-|^loop-(init|preserved|smaller)")
PLAIN = re.compile(r"^[a-z][a-z0-9_]*'*$")
# constructors of a request, beside the definitions of the lowest free place
OTHER = {'free-own': 'freeing_own', 'free-incoming': 'freeing_incoming'}


def snake(w):
    w = w.replace('-', '_').replace('′', "'")
    w = re.sub(r'([A-Z]+)([A-Z][a-z])', r'\1_\2', w)
    w = re.sub(r'([a-z0-9])([A-Z])', r'\1_\2', w)
    return w.lower()


def texts():
    for folder, dirs, files in os.walk('crates'):
        dirs[:] = sorted(d for d in dirs if d not in ('out', 'must-fail', 'data'))
        for f in sorted(files):
            if f.endswith(('.antt', '.rt')):
                yield os.path.join(folder, f)


def is_use(l):
    return l.startswith(('use ', 'ghost use'))


def body(text):
    return [l for l in text.split('\n') if not is_use(l) and l.strip()]


def path_of(p):
    """A path of either Rattle in one form."""
    p = p.replace('·', '.')
    return re.sub(r'\.(specs|proofs)\.\1\b', r'.\1', p)


def imports(text):
    found = collections.defaultdict(list)
    for m in re.finditer(r'^(?:ghost )?use ([\w.·]+)\.\{([^}]*)\}', text, re.M):
        found[path_of(m.group(1))] += [n.split(' as ')[0].strip() for n in m.group(2).split(',')]
    return found


old = {p: subprocess.run(['git', 'show', 'HEAD:' + p], capture_output=True, text=True).stdout for p in texts()}
sources = set()
for p, t in old.items():
    if p.endswith('.rt'):
        sources |= set(re.findall(r'\bfn ([a-z_0-9]+)', t))


def is_made(line, m, p):
    """A part of a name that the check makes of a function's: `c.release-own.ensures`."""
    return p.endswith('Proof.antt') and m.start() > 0 and line[m.start() - 1] == '.' and re.sub(r'\d+$', '', snake(m.group(0))) in sources


def code_of(l, p):
    return l.split('--')[0] if p.endswith('.antt') else l.split('//')[0]


# the lemmas that get `_lem`
lemmas = set()
for p, t in old.items():
    forms = collections.defaultdict(set)
    for l in t.split('\n'):
        c = code_of(l, p)
        if p.endswith('.rt') and not re.search('ensures|requires|ghost', c):
            continue
        c = c.replace(' .', '.')
        for m in WORD.finditer(c):
            if not is_made(c, m, p):
                forms[snake(m.group(0))].add(m.group(0))
    for s, f in forms.items():
        if any('-' in w for w in f) and any(w != s and '-' not in w for w in f):
            lemmas |= {w for w in f if '-' in w}


def new(w):
    if w in OTHER:
        return OTHER[w]
    return snake(w) + ('_lem' if w in lemmas else '')


def outside(text):
    """The names that a file has from other libraries."""
    names = set()
    for p, ns in imports(text).items():
        parts = p.split('.')
        if not (parts[0] == 'Rattle' and len(parts) > 1 and parts[1] in own):
            names |= set(ns)
    return names


def turn_code(line, before, keep, p):
    olds = collections.defaultdict(list)
    b = before.replace(' .', '.')
    for m in WORD.finditer(b):
        olds[snake(m.group(0))].append(snake(m.group(0)) if is_made(b, m, p) else new(m.group(0)))
    count = collections.Counter(snake(m.group(0)) for m in WORD.finditer(line))
    seen = collections.Counter()

    def one(m):
        w = m.group(0)
        s = snake(w)
        i = seen[s]
        seen[s] += 1
        if w in keep or MADE.match(w):
            return w
        if len(olds[s]) == count[s]:
            return olds[s][i]
        if PLAIN.match(w):
            if any(o != s for o in olds[s]):
                print('look:', p, w, line[:120])
            return w
        return s if is_made(line, m, p) else new(w)

    return WORD.sub(one, line)


def turn_said(line):
    line = re.sub(r'`([^`]*)`', lambda m: '`' + WORD.sub(lambda w: new(w.group(0)), m.group(1)) + '`', line)
    return re.sub(r"(?<![\w/.-])[a-z]+[A-Z]\w*(?![\w/-])", lambda w: snake(w.group(0)), line)


def turn_use(l, had, p):
    m = re.match(r'^((?:ghost )?use )([\w.·]+?)(?:\.\{(.*)\})?( as .*?)?(;?)$', l)
    if p.endswith('.rt') and l.startswith('use '):
        return l
    if not m:
        print('look:', p, l)
        return l
    head, path, names, alias, end = m.groups()
    parts = path.split('.')
    ours = parts[0] == 'Rattle' and len(parts) > 1 and parts[1] in own
    if names is not None:
        out = []
        for n in names.split(','):
            n = n.strip()
            a, _, b = n.partition(' as ')
            if ours and WORD.fullmatch(a):
                was = [w for w in had[path] if snake(w) == snake(a)]
                if len(was) > 1:
                    was = [w for w in was if w == a] or was
                a = new(was[0]) if was else new(a)
            if b and WORD.fullmatch(b):
                b = new(b)
            out.append(a + (' as ' + b if b else ''))
        return head + path + '.{' + ', '.join(out) + '}' + (alias or '') + end
    if alias:
        alias = ' as ' + (new(alias[4:]) if WORD.fullmatch(alias[4:]) else alias[4:])
    return head + path + (alias or '') + end


def turn(p, text):
    keep = outside(text)
    had = imports(old[p])
    before = body(old[p])
    antt = p.endswith('.antt')
    mark = '--' if antt else '//'
    same = len(before) == len(body(text))
    out, i, inside = [], 0, 0
    for l in text.split('\n'):
        if is_use(l):
            out.append(turn_use(l, had, p))
            continue
        if not l.strip():
            out.append(l)
            continue
        b = before[i] if same else ''
        i += 1
        k = l.find(mark)
        code, said = (l, '') if k < 0 else (l[:k], l[k:])
        kb = b.find(mark)
        b = b if kb < 0 else b[:kb]
        if antt:
            code = turn_code(code, b, keep, p)
        elif inside or re.match(r'\s*(requires|ensures|ghost)\b', code):
            inside = max(inside + code.count('{') - code.count('}'), 0)
            code = turn_code(code, b, keep, p)
        out.append(code + turn_said(said))
    return '\n'.join(out)


changed = 0
for p in sorted(old):
    t = open(p, encoding='utf-8').read()
    n = turn(p, t)
    heads = collections.Counter(re.findall(r"^(?:(?:pattern|unfoldable|abbrev|pub|axiom) )*([a-z][\w-]*'*)(?: \{[^}]*\})? :", n, re.M))
    for w in heads:
        if heads[w] > 1:
            print('fall together:', p, w)
    if n != t:
        changed += 1
        open(p, 'w', encoding='utf-8').write(n)
print(changed, 'files respelled;', len(lemmas), 'lemmas beside a definition of their name:', ' '.join(sorted(lemmas)))
