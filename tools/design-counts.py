#!/usr/bin/env python3
"""design-counts.py [--root DIR] [--brief] 1..8 | all | recount

Counts the places in crates/*/src/*.rt (point 8: crates/*/proofs) that an older design leaves behind, one subcommand per point:
  1  own enums of the shape of Option or Result, refusal numbers and flags with a value beside them, numbers for kinds, 0 for none
  2  twins: functions or types alike after renaming
  3  loops that count an index by hand, and `while`
  4  equality, order, copying, conversion and printing by hand
  5  facts in the contracts of three or more functions, parameters that travel together in three or more
  6  buffers with a length or a place beside them, parallel arrays, lists searched by hand
  7  a switch on which step to run
  8  proofs: answers that say little, and text that several answers repeat
`all` prints a table of numbers; `recount` counts each point in a second way, over lines. A place is a line `file:line: item: what`. A number `k3` beside
another says that at three of the places a reason is given: a comment line that begins with `Stays`, within the item, right above it, or at the head of
its file for all of the file. Crates whose name ends in _test are counted by themselves. All of these are candidates: each is to be read."""
import difflib
import glob
import itertools
import os
import re
import sys
from collections import Counter, OrderedDict, defaultdict

KEYWORDS = set('''as break const continue else enum extern false fn for if impl in let loop match mod mut pub ref return self static struct super trait true
type unsafe use where while bool u8 u32 u64 i64 usize str Some None Ok Err Option Result requires ensures ghost new old now length'''.split())
REASON = re.compile(r'//+ *(Stays|Kept)\b')


class Item:
    """A function, struct, enum, constant or other item of a file."""

    def __init__(self, **fields):
        self.__dict__.update(fields)


def blank(text):
    """The text with comments and the insides of strings and characters made blanks, places kept."""
    out = list(text)
    i, n = 0, len(text)
    while i < n:
        if text.startswith('//', i):
            while i < n and text[i] != '\n':
                out[i] = ' '
                i += 1
        elif text[i] == '"':
            i += 1
            while i < n and text[i] != '"':
                step = 2 if text[i] == '\\' else 1
                for k in range(i, min(i + step, n)):
                    if out[k] != '\n':
                        out[k] = ' '
                i += step
            i += 1
        elif text[i] == "'" and re.match(r"'(\\.|[^\\'])'", text[i:i + 4]):
            end = text.index("'", i + 2 if text[i + 1] == '\\' else i + 1)
            for k in range(i + 1, end):
                out[k] = ' '
            i = end + 1
        else:
            i += 1
    return ''.join(out)


def closing(text, at):
    """The place of the bracket that closes the one at a place."""
    depth = 0
    for i in range(at, len(text)):
        if text[i] in '([{':
            depth += 1
        elif text[i] in ')]}':
            depth -= 1
            if depth == 0:
                return i
    raise ValueError('no closing bracket')


def split_top(text, mark=','):
    parts, depth, last = [], 0, 0
    for i, ch in enumerate(text):
        if ch in '([{<':
            depth += 1
        elif ch in ')]}' or (ch == '>' and text[i - 1] not in '-='):
            depth -= 1
        elif ch == mark and depth == 0:
            parts.append(text[last:i])
            last = i + 1
    parts.append(text[last:])
    return [p.strip() for p in parts if p.strip()]


def parse(path):
    raw = open(path, encoding='utf-8').read()
    text = blank(raw)
    crate = path.split('/')[1]
    lines = raw.split('\n')

    def line_of(at):
        return text.count('\n', 0, at) + 1

    head = list(itertools.takewhile(lambda l: l.startswith('//'), lines))
    whole = any(REASON.search(l) for l in head)
    impls = []
    for m in re.finditer(r'^(\s*)impl\b([^{;]*)\{', text, re.M):
        impls.append((m.end() - 1, closing(text, m.end() - 1), re.sub(r'^<[^>]*>\s*', '', ' '.join(m.group(2).split()))))
    items = []

    def add(kind, name, start, end, **more):
        first = line_of(start)
        above = []
        k = first - 2
        while k >= 0 and re.match(r'\s*(//|#\[)', lines[k]):
            above.append(lines[k])
            k -= 1
        body_lines = lines[first - 1:line_of(end)]
        comments = above + [l[l.index('//'):] for l in body_lines if '//' in l]
        items.append(Item(kind=kind, name=name, path=path, crate=crate, line=first, end=line_of(end), comments=comments,
                          kept=whole or any(REASON.search(c) for c in comments), doc=' '.join(reversed(above)), test=crate.endswith('_test'), **more))

    for m in re.finditer(r'\bfn\s+(\w+)', text):
        at = m.end()
        if text[at:at + 1] == '<':
            depth = 0
            while True:
                if text[at] == '<':
                    depth += 1
                elif text[at] == '>' and text[at - 1] != '-':
                    depth -= 1
                    if depth == 0:
                        break
                at += 1
            at += 1
        if text[at:at + 1] != '(':
            continue
        close = closing(text, at)
        params = []
        for p in split_top(text[at + 1:close]):
            p = re.sub(r'^(mut|ghost)\s+', '', p)
            if ':' in p:
                name, kind = p.split(':', 1)
                params.append((name.strip(), ' '.join(kind.split())))
            elif 'self' in p:
                params.append(('self', p))
        rest = close + 1
        result = ''
        r = re.match(r'\s*->\s*', text[rest:])
        if r:
            start = rest + r.end()
            stop = re.compile(r'\s*(\brequires\b|\bensures\b|\bghost\b|\bwhere\b|[{;])').search(text, start)
            result = ' '.join(text[start:stop.start()].split())
            rest = stop.start()
        clauses = []
        clause = re.compile(r'\s*(requires|ensures)\*?\s+(\w+)\*?\s*\{')
        while True:
            c = clause.match(text, rest)
            if not c:
                break
            end = closing(text, c.end() - 1)
            clauses.append((c.group(1), c.group(2), ' '.join(raw[c.end():end].split())))
            rest = end + 1
        w = re.compile(r'[^{;]*').match(text, rest)
        rest = w.end()
        if rest >= len(text) or text[rest] != '{':
            continue
        end = closing(text, rest)
        line_start = text.rfind('\n', 0, m.start()) + 1
        inside = [i for i in impls if i[0] < m.start() < i[1]]
        owner = inside[-1][2] if inside else ''
        name = (owner.split(' for ')[-1].split('<')[0].strip() + '::' if owner else '') + m.group(1)
        add('fn', name, m.start(), end, short=m.group(1), params=params, result=result, clauses=clauses, body=text[rest + 1:end], raw_body=raw[rest + 1:end],
            pub='pub' in text[line_start:m.start()], extern='extern' in text[line_start:m.start()], owner=owner)
    for m in re.finditer(r'\bstruct\s+(\w+)[^;{(]*([;{(])', text):
        if m.group(2) == ';':
            continue
        end = closing(text, m.end() - 1)
        parts = split_top(text[m.end():end])
        fields = []
        for p in parts:
            p = re.sub(r'^(#\[[^\]]*\]\s*)*(pub(\([^)]*\))?\s+)?', '', p)
            if m.group(2) == '{' and ':' in p:
                name, kind = p.split(':', 1)
                fields.append((name.strip(), ' '.join(kind.split())))
            elif m.group(2) == '(':
                fields.append((str(len(fields)), ' '.join(p.split())))
        add('struct', m.group(1), m.start(), end, fields=fields, tuple=m.group(2) == '(')
    for m in re.finditer(r'\benum\s+(\w+)[^;{]*\{', text):
        end = closing(text, m.end() - 1)
        variants = []
        for p in split_top(text[m.end():end]):
            v = re.match(r'(?:#\[[^\]]*\]\s*)*(\w+)\s*(\((.*)\))?(\{.*\})?', p, re.S)
            payload = split_top(v.group(3)) if v.group(2) else ([v.group(4)] if v.group(4) else [])
            variants.append((v.group(1), payload))
        add('enum', m.group(1), m.start(), end, variants=variants)
    for m in re.finditer(r'^\s*(?:pub )?const\s+(\w+)\s*:\s*(\w+)\s*=\s*([^;]+);', text, re.M):
        add('const', m.group(1), m.start(1), m.end(), type=m.group(2), value=m.group(3))
    for m in re.finditer(r'^\s*use\s+[^;]+;', text, re.M):
        pass
    return items


def load(root):
    os.chdir(root)
    items = []
    for path in sorted(glob.glob('crates/*/src/*.rt') + glob.glob('crates/*/src/*/*.rt')):
        items += parse(path)
    return items


class Places:
    def __init__(self):
        self.rows = OrderedDict()

    def add(self, item, what, line=None):
        key = (item.path, item.name, item.line)
        row = self.rows.setdefault(key, [item, [], line or item.line])
        if what not in row[1]:
            row[1].append(what)

    def show(self, brief):
        per = Counter()
        kept = Counter()
        for item, what, line in self.rows.values():
            per[item.crate] += 1
            kept[item.crate] += item.kept
            if not brief:
                print(f"{item.path}:{line}: {item.name}: {'; '.join(what)}{'   [reason given]' if item.kept else ''}")
        return per, kept


# --- 1 ------------------------------------------------------------------------------------------------------------------------------------------
def literal_refusals(f):
    """The numbers that a function with a number for an answer returns, where it also returns 0."""
    found = re.findall(r'return\s+(\d+)\s*;', f.body) + re.findall(r'(\d+)\s*$', f.body.strip())
    return sorted(set(map(int, found)) - {0})


def point1(items):
    p = Places()
    fns = [i for i in items if i.kind == 'fn']
    for i in items:
        if i.kind == 'enum' and len(i.variants) == 2:
            sizes = sorted(min(len(v[1]), 1) for v in i.variants)
            if sizes == [0, 1]:
                p.add(i, 'an enum of the shape of Option')
            elif sizes == [1, 1]:
                p.add(i, 'an enum of the shape of Result')
        if i.kind == 'struct' and not i.tuple:
            names = dict(i.fields)
            for name, kind in i.fields:
                if name in ('refusal', 'number') and kind in ('u32', 'u64'):
                    p.add(i, f'a refusal number `{name}` with values beside it')
                elif name == 'refusal' and kind == 'Refusal':
                    p.add(i, 'a refusal that may be none beside values')
                elif kind == 'bool' and len(i.fields) > 1:
                    p.add(i, f'a flag `{name}` with values beside it')
                elif name == 'fine' and kind == 'u32':
                    p.add(i, 'a number `fine` for a kind')
                elif name == 'output' and kind == 'Output' and 'looks' in names:
                    p.add(i, 'an output, 0 for none')
        if i.kind == 'struct' and i.tuple and len(i.fields) > 1 and any(k == 'bool' for _, k in i.fields):
            p.add(i, 'a flag for a kind with values beside it')
        if i.kind == 'const' and i.type == 'bool':
            p.add(i, 'a flag for a kind')
    for f in fns:
        text = ' '.join(c[2] for c in f.clauses)
        if f.result == 'u32' and (f.short.endswith('refusal') or re.search(r'\beffect result\b|_refusal\b', text)
                                  or re.search(r'\brefus', f.doc) or f.short.startswith(('kivdrag_', 'put_result', 'put_preview'))):
            if f.short.startswith('kivdrag_test'):
                continue
            lits = literal_refusals(f)
            p.add(f, 'answers with a refusal number, 0 for none' + (f" ({', '.join(map(str, lits))})" if lits else ''))
        for name, kind in f.params:
            if name in ('refusal', 'number') and kind in ('u32', 'u64') and (name == 'refusal' or re.search('refus|beside a|without sums', f.doc + text, re.I)):
                p.add(f, f'takes a refusal number `{name}`')
            if kind == 'bool' and name in ('fine', 'pipelined', 'running'):
                p.add(f, f'takes a flag `{name}` for a kind')
            if kind == 'u32' and name == 'fine':
                p.add(f, 'takes a number `fine` for a kind')
        m = re.search(r'Refused\(\d+\)|refusal\([^()]*,\s*[1-9]\d*\)', f.body)
        if m:
            p.add(f, f'a refusal as a number in place: {m.group(0)}')
        if re.search(r'\brefusal(\.number)?\s*(!=|==|>)\s*0|\bnumber\s*(!=|==)\s*0|\.refusal\s*(!=|==|>)\s*0', f.body):
            p.add(f, 'asks whether a number is 0 for an answer, by hand')
        if re.search(r'\bfine\s*(!=|==)\s*0', f.body):
            p.add(f, 'asks a number for a kind')
        if re.search(r'\bOutput\(0\)', f.body) or re.search(r'output\.0\s*(>|==|!=)\s*0', f.body):
            p.add(f, 'an output that is 0 for none')
        if f.result == 'usize' and re.search(r'or the length where|0 where it is no port|0 where one of', f.doc):
            p.add(f, 'a number that stands for none')
    return p


# --- 2 ------------------------------------------------------------------------------------------------------------------------------------------
TOKEN = re.compile(r'[A-Za-z_]\w*|\d[\w]*|\S')
TWIN_WORDS = [('direct', 'pipelined'), ('direct', 'pipe'), ('start', 'pipe'), ('row', 'column'), ('rows', 'columns'), ('input', 'output'),
              ('first', 'second'), ('one', 'two'), ('book', 'release'), ('book', 'rate'), ('release', 'release_rate'), ('slots', 'rates'),
              ('credits', 'queues'), ('credit', 'packet'), ('add_to', 'take_off'), ('ready', 'waiting')]


def alpha(tokens):
    names, out = {}, []
    for t in tokens:
        if re.match(r'[A-Za-z_]', t) and t not in KEYWORDS:
            out.append(names.setdefault(t, f'v{len(names)}'))
        elif re.match(r'\d', t):
            out.append('N')
        else:
            out.append(t)
    return out


CANON = {}
for group in ('direct pipelined start pipe form', 'row rows column columns input output', 'first second one two', 'book release slots rates rate amount',
              'credits queues credit packet left ready waiting found', 'add take off to raised lowered', 'kivdrag_c'):
    for word in group.split():
        CANON[word] = group.split()[0].upper()


def canon(tokens):
    """Tokens in which the words that tell twins apart are one word."""
    out = []
    for t in tokens:
        if re.match(r'[A-Za-z_]', t):
            parts = [CANON.get(w.lower(), w) for w in t.split('_') if w not in ('rate', 'rates', 'new', 'old', 'now')]
            out.append('_'.join(parts) or 'W')
        elif re.match(r'\d', t):
            out.append('N')
        else:
            out.append(t)
    return out


def word_twins(a, b):
    """Whether two names differ only in one of the pairs of words, or in a word `rate` more."""
    for x, y in TWIN_WORDS:
        if a.replace(x, y) == b or b.replace(x, y) == a:
            return True
    return a.replace('_rate', '') == b.replace('_rate', '')


def alike(f, g):
    def ratio(x, y):
        return difflib.SequenceMatcher(None, x, y, autojunk=False).ratio() if x and y else 0
    body = max(ratio(f.alpha, g.alpha), ratio(f.canon, g.canon))
    clause = max(ratio(f.calpha, g.calpha), ratio(f.ccanon, g.ccanon))
    return body, clause


def point2(items):
    p = Places()
    fns = [i for i in items if i.kind == 'fn' and i.short not in ('main', 'limits', 'loads', 'short_runs')]
    # in tests, a function of one call with its words is data
    def data(f):
        return f.test and not re.search(r'\b(let|for|if|match|while)\b', f.body) and len(set(re.findall(r'\b([a-z_]\w*)(?:::<[^>]*>)?\(', f.body))) <= 2

    fns = [f for f in fns if not data(f)]
    for f in fns:
        tokens = TOKEN.findall(f.body)
        clause = TOKEN.findall(' '.join(c[0] + ' ' + c[2] for c in f.clauses))
        f.alpha, f.canon, f.calpha, f.ccanon = alpha(tokens), canon(tokens), alpha(clause), canon(clause)
    pairs = []
    for f, g in itertools.combinations(fns, 2):
        if f.test != g.test or f.crate.endswith('_c_c') != g.crate.endswith('_c_c') or f.crate.endswith('_c') != g.crate.endswith('_c'):
            continue
        m, n = len(f.alpha), len(g.alpha)
        named = word_twins(f.short, g.short) and f.short != g.short and f.crate == g.crate
        if min(m, n) < (5 if named else 9) or min(m, n) / max(m, n) < (0.35 if named else 0.75):
            continue
        if not named and f.crate != g.crate and f.test and f.short != g.short:
            continue
        body, clause = alike(f, g)
        bare = not f.clauses and not g.clauses
        if (named and body >= 0.5 and (bare or clause >= 0.5)) or (body >= 0.9 and (bare or clause >= 0.75)):
            pairs.append((f, g))
    structs = [i for i in items if i.kind == 'struct']
    for a, b in itertools.combinations(structs, 2):
        same = set(a.fields) & set(b.fields)
        if a.test == b.test and ((not a.tuple and not b.tuple and len(same) >= 2 and len(same) / min(len(a.fields), len(b.fields)) >= 0.66)
                                 or (a.tuple and b.tuple and a.fields == b.fields)):
            pairs.append((a, b))
    partners = OrderedDict()
    for a, b in pairs:
        partners.setdefault(id(a), (a, []))[1].append(b)
        partners.setdefault(id(b), (b, []))[1].append(a)
    for i, others in sorted(partners.values(), key=lambda v: (v[0].path, v[0].line)):
        p.add(i, 'alike: ' + ', '.join(o.name if o.path == i.path else f'{o.crate}::{o.name}' for o in others))
    return p


# --- 3 ------------------------------------------------------------------------------------------------------------------------------------------
def loops(f):
    for m in re.finditer(r'\b(for|while|loop)\b', f.body):
        rest = f.body[m.end():]
        brace = rest.find('{')
        head = ' '.join(rest[:brace].split())
        start = m.end() + brace
        yield m.group(1), head, f.body[start + 1:closing(f.body, start)], m.start()


def point3(items):
    p = Places()
    for f in items:
        if f.kind != 'fn':
            continue
        for word, head, body, at in loops(f):
            if word == 'while':
                counted = re.search(r'\b(\w+)\s*(\+|-)=\s*1\b', body)
                p.add(f, f'while {head}' + (f': `{counted.group(1)}` counted by hand' if counted else ''))
            elif word == 'loop':
                p.add(f, 'loop')
            else:
                m = re.match(r'(\w+) in (.*\.\..*)$', head)
                if not m or m.group(1) == '_':
                    continue
                name = m.group(1)
                if re.search(r'\[[^\]]*\b' + name + r'\b[^\]]*\]', body):
                    p.add(f, f'for {head}: indexes with `{name}`')
                elif re.search(r'\b' + name + r'\b', body):
                    p.add(f, f'for {head}: counts `{name}`')
                else:
                    p.add(f, f'for {head}')
        places = re.findall(r'\w+\([^()]*\b(\w+), (\d+)\)', f.body)
        if len(places) >= 4 and [int(n) for _, n in places] == list(range(len(places))):
            p.add(f, 'the same call for places 0, 1, 2 .. written out')
        if re.search(r'\.len\(\)\s*\{\s*$|if \w+ < \w+\.len\(\)', f.body) and re.search(r'\w+\[\w+\]', f.body) and not list(loops(f)):
            p.add(f, 'a length tested before an index: `get`')
    return p


# --- 4 ------------------------------------------------------------------------------------------------------------------------------------------
def point4(items):
    p = Places()
    tuples = {i.name for i in items if i.kind == 'struct' and i.tuple}
    structs = {i.name for i in items if i.kind == 'struct'}
    enums = {i.name for i in items if i.kind == 'enum'}
    for f in items:
        if f.kind != 'fn':
            continue
        body = ' '.join(f.body.split())
        one = ';' not in body.rstrip(';') and '{' not in body
        derived = f.owner.startswith(('From', 'TryFrom', 'fmt', 'Display', 'PartialEq', 'Ord', 'PartialOrd', 'Clone', 'Default'))
        if derived:
            continue
        slices = [k for _, k in f.params if '[' in k]
        if one and len(f.params) == 1:
            m = re.match(r'(\w+)\((\w+)(\.0)?( as \w+)?\)$', body)
            if m and m.group(1) in tuples:
                p.add(f, 'a conversion by hand into ' + m.group(1))
            elif re.match(r'\w+(\.0)? as \w+$', body):
                p.add(f, 'a conversion by hand, a cast')
        if one and len(f.params) == 2 and slices:
            if re.match(r'(\w+)\(\w+\[\w+\]( as \w+)?\)$', body) or re.match(r'\w+\[\w+\] = \w+\.0;?$', body):
                p.add(f, 'a wrap or unwrap by hand of a word of a run')
        m = re.match(r'(\w+) \{ (.*?),? \}$', body)
        if m and m.group(1) in structs and len(f.params) <= 4:
            p.add(f, f'builds {m.group(1)} by hand: From, a constructor or Default')
        if re.match(r'\*\w+ = \[[^\]]*\.\w+[^\]]*\];?$', body):
            p.add(f, 'a struct written into words by hand: From')
        if f.result == 'bool' and len(f.params) == 2 and f.params[0][1] == f.params[1][1] and '[' in f.params[0][1]:
            p.add(f, 'equality by hand: ==')
        if f.result == 'bool' and re.fullmatch(r'(\w+) <= (\w+) && \2 <= (\w+)', body):
            p.add(f, 'a range tested by hand: (low..=high).contains')
        if re.search(r'\w+(\.\w+)*\.0 (!=|==) \w+(\.\w+)+\.0', body):
            p.add(f, 'numbers of tuple structs compared: PartialEq')
        if f.result == 'bool' and re.match(r'match \w+ \{( \w+::\w+ => (true|false),?)+ \}$', body):
            p.add(f, 'a match to true and false: matches! or ==')
        if re.match(r'if (\w+)(\.0)? [<>] (\w+) \{ return [^;]*\3\)?; \} .*$', body) and len(body) < 90:
            p.add(f, 'min by hand')
        if re.match(r'if (\w+) < (\w+) \{ return \1 \+ 1; \} \1$', body) or re.search(r'if \w+ > ([A-Z_]+) \{ return \1; \}', body):
            p.add(f, 'min by hand')
        if len(re.findall(r'\*\w+ = \w+\.\w+;', body)) >= 2:
            p.add(f, 'fields written one by one into lent words')
        if f.params and f.params[0][1] == f.result and f.result in structs and body.endswith(f.params[0][0]):
            p.add(f, 'fields of a struct changed one by one')
        if len(f.params) == 1 and re.match(r"&('\w+ )?\[u8\]$", f.params[0][1]) and (f.result in enums or f.result.startswith('Option')):
            p.add(f, 'text read by hand: TryFrom')
        if f.result == 'u32' and re.match(r'if (\w+) == 0 \{ return (\w+); \} \1$', body):
            p.add(f, 'a choice by hand')
        if any(n in ('out',) for n, _ in f.params) and f.short.startswith('put'):
            p.add(f, 'printing by hand into a buffer')
        if f.test and re.match(r'(say|text|number|word$|clock_of$|refused|show|five)', f.short):
            p.add(f, 'printing by hand: Display or print!')
        fields = re.findall(r'\b(\w+): (?:\w+\.)+\1\b', body)
        copies = re.findall(r'let (\w+) = (?:\w+\.)+\1\b', body)
        taken = set(fields) | set(copies)
        if len(taken) >= 2 and re.search(r'\b[A-Z]\w+ \{', body):
            p.add(f, f"copies fields by hand: {', '.join(sorted(taken))}")
        casts = re.findall(r'\w+(?:\.\w+)* as (?:u64|u32|usize|u8|i64)', body)
        if one and casts and f.short in ('wide',):
            p.add(f, 'a conversion by hand, a cast')
    return p


# --- 5 ------------------------------------------------------------------------------------------------------------------------------------------
def together(fns):
    sets = [(f, frozenset(n for n, _ in f.params if n not in ('rt', 'name', 'self'))) for f in fns]
    found = {}
    distinct = {s for _, s in sets if len(s) >= 2}
    closed = set(distinct)
    for a, b in itertools.combinations(distinct, 2):
        if len(a & b) >= 2:
            closed.add(a & b)
    for c in closed:
        users = [f for f, s in sets if c <= s]
        if len(users) >= 3:
            found[c] = users
    # a set stands if no larger one has as many functions
    kept = {c: u for c, u in found.items() if not any(c < d and len(v) == len(u) for d, v in found.items())}
    return kept


def normal(kind, text, f):
    text = re.sub(r'\.(old|now|new)\b', '', text)
    text = re.sub(r'\s+', ' ', text)
    return text


def point5_facts(fns):
    facts = defaultdict(list)
    for f in fns:
        for kind, name, text in f.clauses:
            if kind == 'requires':
                t = normal(kind, text, f)
                t = re.sub(r'\b(slots|rates|credits|queues|given|copy|flight|run|words|booked|buffer|out|to|from)\b(?! f)', 'RUN', t)
                t = re.sub(r'\b(clock\.ports|ports)\b', 'PORTS', t)
                t = re.sub(r'\b(more|request\.more)\.0', 'MORE', t)
                t = re.sub(r'\brequest\.(input|output)\b', r'\1', t)
                t = re.sub(r'\b(input|output)\.0', 'PORT', t)
                t = re.sub(r'\b(count|row|at|fed\.written)\b', 'AT', t)
                facts[t].append(f)
    return {t: u for t, u in facts.items() if len({(f.path, f.name) for f in u}) >= 3}


def show5(items, brief):
    """The groups, then the functions that are in one."""
    p = Places()
    for test in (False, True):
        fns = [i for i in items if i.kind == 'fn' and i.test == test]
        groups = together(fns)
        kept = sorted(groups.items(), key=lambda cu: (-len(cu[1]), sorted(cu[0])))
        facts = sorted(point5_facts(fns).items(), key=lambda cu: -len(cu[1]))
        if not brief:
            print(f"-- parameters that travel together in three or more functions{' (tests)' if test else ''}")
        for c, users in kept[:40]:
            if not brief:
                print(f"   {len(users):3}  {', '.join(sorted(c))}")
        if not brief and len(kept) > 40:
            print(f'   and {len(kept) - 40} more sets')
        if not brief:
            print(f"-- facts in the `requires` of three or more functions{' (tests)' if test else ''}")
        for t, users in facts:
            if not brief:
                print(f"   {len(users):3}  {t}")
        named = [frozenset(g) for g in (('slots', 'rates'), ('credits', 'queues', 'given'), ('copy', 'flight'), ('input', 'output'), ('out', 'at'),
                                        ('queues', 'given'), ('frame', 'line'), ('outputs', 'first_pass'), ('clock', 'book', 'pair'))]
        for f in fns:
            names = {n for n, _ in f.params}
            for g in named:
                if g <= names and g in {n for n in named if sum(n <= {x for x, _ in h.params} for h in fns) >= 3}:
                    p.add(f, 'takes ' + ', '.join(sorted(g)))
            for t, users in facts:
                if f in users:
                    p.add(f, f'requires {t}')
        p.__dict__.setdefault('counts', []).append((len(kept), len(facts)))
    return p


# --- 6 ------------------------------------------------------------------------------------------------------------------------------------------
def point6(items):
    p = Places()
    for i in items:
        if i.kind == 'struct' and not i.tuple:
            arrays = [n for n, k in i.fields if re.match(r'\[', k)]
            if len(arrays) >= 2:
                p.add(i, 'parallel arrays: ' + ', '.join(arrays))
            names = dict(i.fields)
            if 'outputs' in names and 'first_pass' in names:
                p.add(i, 'outputs beside the pass-one word')
            if 'count' in names:
                p.add(i, 'a count of bytes kept in a buffer elsewhere')
            if {'taken', 'written'} & set(names):
                p.add(i, 'places in slices that are lent elsewhere')
        if i.kind != 'fn':
            continue
        slices = [n for n, k in i.params if re.search(r'&\s*(\'\w+ )?(mut )?\[u(8|32)\]', k)]
        names = dict(i.params)
        if slices:
            for n in ('at', 'count', 'row', 'place', 'words'):
                if names.get(n) == 'usize':
                    p.add(i, f"`{n}` beside {', '.join(slices)}")
        if {'slots', 'rates'} <= set(slices):
            p.add(i, 'slots beside rates')
        if {'credits', 'queues'} <= set(slices):
            p.add(i, 'credits beside queues')
        if 'outputs' in names and 'first_pass' in names:
            p.add(i, 'outputs beside the pass-one word')
        tests = re.findall(r'if \w+\((\w+), b".*?"\)', i.raw_body)
        if len(tests) >= 2:
            p.add(i, 'a list searched by hand')
    return p


# --- 7 ------------------------------------------------------------------------------------------------------------------------------------------
def call_at(text, at):
    """The call that begins at a place: its name and the place after it; none where there is no call of a function."""
    m = re.match(r'([\w:.]+)\(', text[at:])
    if not m or re.match(r'[A-Z]', m.group(1).split('::')[-1]) or m.group(1) in ('Ok', 'Err', 'Some'):
        return None
    return m.group(1), closing(text, at + m.end() - 1) + 1


def point7(items):
    p = Places()
    for f in items:
        if f.kind != 'fn':
            continue
        body = ' '.join(f.body.split())
        for m in re.finditer(r'\bmatch [^{]+\{', body):
            inside = body[m.end():closing(body, m.end() - 1)]
            arms = [call_at(inside, a.end()) for a in re.finditer(r'=> (?:\{ )?', inside)]
            if sum(a is not None for a in arms) >= 2:
                p.add(f, f'a match on which of {sum(a is not None for a in arms)} calls to run')
        for m in re.finditer(r'if ([^{};]+) \{ (return )?', body):
            first = call_at(body, m.end())
            if not first:
                continue
            rest = re.match(r';? \} (else \{ )?', body[first[1]:])
            if not rest or not (m.group(2) or rest.group(1)):
                continue
            second = call_at(body, first[1] + rest.end())
            if second and re.match(r';?( \})?$', body[second[1]:]) and not (f.test and f.short in ('main', 'say_run', 'say_pair')):
                same = first[0] == second[0]
                p.add(f, f'an if on which of two calls to run: {first[0]}, {second[0]}' + (' (one function, two arguments)' if same else ''))
        if any(re.search(r'\bfn\(', k) for _, k in f.params):
            p.add(f, 'a function pointer')
    return p


# --- 8 ------------------------------------------------------------------------------------------------------------------------------------------
def answers(path):
    """The definitions of a proof file: name, the text of its value."""
    text = open(path, encoding='utf-8').read()
    text = re.sub(r'^\s*--.*$', '', text, flags=re.M)
    found = []
    for block in re.split(r'\n\s*\n', text):
        m = re.match(r'\s*(?:pub )?([\w:+-]+) : ', block)
        if m and '\n' in block:
            name = m.group(1)
            value = re.split(r'\n' + re.escape(name) + r'\b[^=\n]*=', block, maxsplit=1)
            if len(value) == 2:
                found.append((name, ' '.join(value[1].split()), block))
    return found


def point8(brief):
    per = defaultdict(Counter)
    rows = []
    seen = defaultdict(list)
    for path in sorted(glob.glob('crates/*/proofs/**/*.antt', recursive=True)):
        crate = path.split('/')[1]
        lines = open(path, encoding='utf-8').read().count('\n')
        per[crate]['lines'] += lines
        per[crate]['files'] += 1
        own = answers(path)
        is_answer = path.endswith(('Answers.antt', 'Invariants.antt'))
        if is_answer:
            per[crate]['answers'] += len(own)
        plain = [n for n, v, _ in own if re.fullmatch(r'(record \{ \w+ = )?(search rules|search|omega arith|refl|grind|grind arith)( \})?', v)]
        if is_answer and own and len(plain) == len(own):
            rows.append((path, 'no more than a tactic: ' + ', '.join(plain)))
            per[crate]['tactic alone'] += 1
        elif is_answer and plain:
            rows.append((path, 'some no more than a tactic: ' + ', '.join(plain)))
            per[crate]['some tactic'] += 1
        if is_answer:
            for n, v, _ in own:
                shape = re.sub(r'\bgoal\.at\.[\w-]+', 'goal.at.X', v)
                shape = re.sub(r'\bc\.if-[\w-]+', 'c.if-X', shape)
                if len(shape) > 40:
                    seen[(crate, ' '.join(alpha(TOKEN.findall(shape))))].append((path, n))
        elif not path.endswith('Lib.antt'):
            for n, v, block in own:
                head = block.split('\n')[0]
                if len(v) < 60 and crate != 'agreement' and not re.search(r'[Cc]lock|[Bb]ook|[Rr]un|Switch|[Rr]efus|[Oo]utput|[Ii]nput|[Mm]ask|[Rr]ow|[Qq]ueue|Turn|free|Text|State', block):
                    per[crate]['small lemmas'] += 1
                    rows.append((path, f'small lemma, in the library? {n}'))
    for (crate, shape), where in sorted(seen.items(), key=lambda kv: -len(kv[1])):
        if len(where) >= 3:
            per[crate]['repeated'] += 1
            per[crate]['in answers'] += len(where)
            rows.append((where[0][0], f"the same answer {len(where)} times: " + ', '.join(f"{os.path.dirname(w).split('proofs/')[1]}.{n}" for w, n in where)))
    if not brief:
        for path, what in rows:
            print(f'{path}: {what}')
    return per


# --- recount ------------------------------------------------------------------------------------------------------------------------------------
def recount():
    """Each point once more, over lines and not items."""
    src = sorted(glob.glob('crates/*/src/*.rt'))
    def lines(pattern, paths=src, where=lambda l: True):
        out = Counter()
        for path in paths:
            for l in open(path, encoding='utf-8'):
                code = l.split('//')[0]
                if re.search(pattern, code) and where(code):
                    out['test' if path.split('/')[1].endswith('_test') else 'src'] += 1
        return out
    rows = [
        ('1', 'lines with `refusal: u32`, `-> u32` of a refusal, `refusal != 0`, `return N;` with N > 0, `Refused(N)`, `Output(0)`, `.0 > 0`',
         lines(r'\b(refusal|number): u32|refusal\w* (!=|==|>) 0|\.refusal (!=|==|>) 0|return [1-9]\d*;|Refused\(\d+\)|Output\(0\)|output\.0 > 0|\bfine: (u32|bool)|pipelined: bool|running: bool|fine (!=|==) 0')),
        ('2', 'signatures whose name has a twin by one of the word pairs', None),
        ('3', 'lines that begin with `for x in a..b` or `while`', lines(r'^\s*(for \w+ in .*\.\.|while )')),
        ('4', 'lines with `as u8/u32/u64/usize/i64`, or `.0 == .. .0`', lines(r'\bas (u8|u32|u64|usize|i64)\b|\.0 (==|!=) \w+.*\.0')),
        ('5', 'lines with a parameter `rates`, `given` or `flight` that is a slice, `output: Output|u64`, `at: usize`',
         lines(r"\b(rates|given|flight): &('\w+ )?(mut )?\[u32\]|\boutput: (Output|u64),|\bat: usize")),
        ('6', 'lines with a parameter `at|count|row|place|words: usize`, or `first_pass:`', lines(r'\b(at|count|row|place|words): usize|first_pass: ')),
        ('7', '`match` on an operation, reading or kind, and `return f(` under an if', lines(r'\bmatch \w+ \{|^\s+return [\w:]+\(.*(,|\)|\()\s*;?$')),
        ('8', 'lines of proofs of the crates with code', None),
    ]
    names = []
    for path in src:
        for m in re.finditer(r'\bfn\s+(\w+)', blank(open(path, encoding='utf-8').read())):
            names.append((path.split('/')[1], m.group(1)))
    twin = Counter()
    for c, n in names:
        if any(word_twins(n, o) and n != o for d, o in names if d == c):
            twin['test' if c.endswith('_test') else 'src'] += 1
    proofs = Counter()
    windows = defaultdict(set)
    for path in glob.glob('crates/*/proofs/**/*.antt', recursive=True):
        ls = [l.strip() for l in open(path, encoding='utf-8') if l.strip() and not l.startswith(('--', 'use '))]
        if '/wsgs/' not in path and '/agreement/' not in path:
            proofs['src'] += len(ls)
            for k in range(len(ls) - 2):
                windows['\n'.join(ls[k:k + 3])].add(path)
    for point, what, number in rows:
        if point == '2':
            number = twin
        if point == '8':
            number = proofs
            what += f"; runs of three lines that stand in three or more files: {sum(len(v) >= 3 for v in windows.values())}"
        print(f"{point}: {number['src']} ({number['test']} in tests): {what}")


def main():
    args = sys.argv[1:]
    root = '.'
    brief = False
    if '--root' in args:
        k = args.index('--root')
        root = args[k + 1]
        del args[k:k + 2]
    if '--brief' in args:
        brief = True
        args.remove('--brief')
    if len(args) != 1:
        sys.exit(__doc__)
    items = load(root)
    what = args[0]
    if what == 'recount':
        return recount()
    points = range(1, 9) if what == 'all' else [int(what)]
    table = {}
    for n in points:
        quiet = brief or what == 'all'
        if not quiet:
            print(f'== point {n}')
        if n == 8:
            per = point8(quiet)
            table[n] = (Counter({c: v['tactic alone'] + v['some tactic'] + v['repeated'] for c, v in per.items()}), Counter())
            if not quiet:
                for c in sorted(per):
                    print(f'   {c}: ' + ', '.join(f'{v} {k}' for k, v in per[c].items()))
            continue
        p = show5(items, quiet) if n == 5 else {1: point1, 2: point2, 3: point3, 4: point4, 6: point6, 7: point7}[n](items)
        table[n] = p.show(quiet)
    crates = sorted({i.crate for i in items} | {c for t in table.values() for c in t[0]}, key=lambda c: (c.endswith('_test'), c))
    print('crate'.ljust(16) + ''.join(f'{n:>10}' for n in points))
    for c in crates:
        if any(table[n][0][c] for n in points):
            print(c.ljust(16) + ''.join(f"{(str(table[n][0][c]) + (' k' + str(table[n][1][c]) if table[n][1][c] else '')):>10}" for n in points))
    for label, test in (('all but tests', False), ('tests', True)):
        print(label.ljust(16) + ''.join(f'{sum(v for c, v in table[n][0].items() if c.endswith("_test") == test):>10}' for n in points))


if __name__ == '__main__':
    try:
        main()
    except BrokenPipeError:
        pass
