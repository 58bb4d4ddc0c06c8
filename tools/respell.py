#!/usr/bin/env python3
"""Brings this repository's own definitions, constructors, fields and lemmas to the spelling of today's Rattle: words in snake case,
types and facts in camel case. It goes by text, over specs/, proofs/ and the ghost lines and clauses of src/. Names of goals and steps,
which Rattle makes, and names imported from its library stay. `respell.py ROOT` changes the files below ROOT; --list shows the names."""
import collections
import glob
import os
import re
import sys

# One token: a longest run of what is no blank and no bracket, comma, point, semicolon or quote.
TOKEN = re.compile(r'[^\s(){}\[\],.;«»⟦⟧"|]+')
HEAD = re.compile(r'^((?:(?:abbrev|unfoldable|pub|data|record|opaque|private)\s+)*)([^\s:(){}\[\],.;]+)((?:\s+[({].*?[)}])*)\s+:\s')
INNER = re.compile(r'^\s+(?:pub\s+)?([^\s:(){}\[\],.;=]+)\s+:\s')
SKIP = re.compile(r'^\s*(--|use\b|pub use\b|mod\b|pub mod\b|open\b|pub open\b|let\b)')


def proof_file(path):
    return os.path.basename(path) in ('Answers.antt', 'Invariants.antt', 'Proof.antt', 'Choices.antt')


def new_name(name):
    """The name in today's spelling."""
    parts = name.split('-')
    if name[0].isupper():
        return ''.join(p[:1].upper() + p[1:] for p in parts)
    return '_'.join(parts)


def defined(path, lines):
    """Names that a file defines: at its top, and in data and records; goals are left out."""
    top, inner, block = set(), set(), None
    for line in lines:
        if SKIP.match(line):
            continue
        if line[:1] not in (' ', '\n', ''):
            block = None
            m = HEAD.match(line)
            if m:
                rest = line[m.end():]
                if proof_file(path) and re.match(r'(goal|given|need|step)\.', rest):
                    continue
                top.add(m.group(2))
                if re.search(r'\b(data|record)\b', m.group(1)):
                    block = 'data' if 'data' in m.group(1) else 'record'
            continue
        m = INNER.match(line)
        if m and block == 'data':
            top.add(m.group(1))
        elif m and block == 'record':
            inner.add(m.group(1))
        elif re.match(r'^  [^\s]', line):
            m = HEAD.match(line[2:])
            if m:
                top.add(m.group(2))
    return top, inner


def imported(text):
    """Names that a file takes from elsewhere than this repository."""
    names = set()
    for m in re.finditer(r'use\s+([^\s{]+)\.\{([^}]*)\}', text):
        if not OWN.match(m.group(1)):
            for item in m.group(2).split(','):
                names.update(item.split())
    return names


def respell(line, words, fields, away):
    out, last = [], 0
    for m in TOKEN.finditer(line):
        word, start = m.group(0), m.start()
        before = line[start - 1] if start else ''
        prime = ''
        while word.endswith("'"):
            word, prime = word[:-1], prime + "'"
        new = None
        if before == '.' and start >= 2 and not line[start - 2].isspace():
            head = re.search(r'([^\s(){}\[\],;«»⟦⟧"|]+)\.$', line[:start])
            first = head.group(1).split('.')[0] if head else ''
            generated = first in ('goal', 'given', 'step') or (first == 'c' and head and head.group(1).count('.') == 0)
            if not generated:
                if re.match(r'^Rattle\b', first):
                    new = words.get(word)
                else:
                    new = fields.get(word) or (words.get(word) if re.match(r'^[A-Za-z]\w*$', first) and first[0].islower() is False else None)
        elif word not in away:
            new = words.get(word) or fields.get(word)
        if new:
            out.append(line[last:start] + new + prime)
            last = m.end()
    return ''.join(out) + line[last:]


def source_line(line, inside):
    """Whether a line of a .rt file is a ghost line or belongs to a clause, and whether a clause goes on."""
    stripped = line.strip()
    begins = re.match(r'^(ghost\b|requires\b|ensures\b|let\b.*=.*⌜)', stripped) or 'ghost ' in stripped
    if inside or begins:
        depth = inside + line.count('{') - line.count('}') if (inside or begins) else 0
        return True, max(depth, 0) if not stripped.startswith('ghost use') else 0
    return False, 0


def main():
    global OWN
    root = [a for a in sys.argv[1:] if not a.startswith('--')][0]
    crates = '|'.join(sorted(os.listdir(os.path.join(root, 'crates')), key=len, reverse=True))
    OWN = re.compile(r'^Rattle\.(%s)\.(specs|proofs)\b' % crates)
    paths = [p for k in ('specs', 'proofs') for p in glob.glob(f'{root}/crates/*/{k}/**/*.antt', recursive=True)]
    words, fields, own, taken = {}, {}, collections.defaultdict(set), set()
    for path in sorted(paths):
        lines = open(path).read().split('\n')
        top, inner = defined(path, [l + '\n' for l in lines])
        own[path] = top | inner
        taken |= top | inner | imported('\n'.join(lines))
        words.update({n: new_name(n) for n in top if '-' in n and re.match(r'^\w', n)})
        fields.update({n: new_name(n) for n in inner if '-' in n})
    together = collections.defaultdict(set)
    for n, m in list(words.items()) + list(fields.items()):
        together[m].add(n)
    for m, ns in sorted(together.items()):
        if len(ns) > 1 or m in taken:
            print('falls together:', m, sorted(ns), 'taken' if m in taken else '')
    if '--list' in sys.argv:
        for n in sorted(words):
            print(n, words[n])
        print('fields', sorted(fields))
        return
    changed = 0
    for path in sorted(paths):
        text = open(path).read()
        away = imported(text) - own[path]
        lines = []
        for line in text.split('\n'):
            if re.match(r'^\s*(pub )?use\s', line):
                m = re.match(r'^(\s*(?:pub )?use\s+)([^\s{]+)(.*)$', line)
                if OWN.match(m.group(2)):
                    line = m.group(1) + respell(m.group(2), words, {}, set()) + respell(m.group(3), words, fields, set())
                lines.append(line)
            elif proof_file(path) and re.match(r'^(pub |abbrev |unfoldable )*[^\s]+ : goal\.', line):
                lines.append(line)
            else:
                keep = set()
                m = re.match(r'^([^\s]+)\s.*=', line) if proof_file(path) else None
                if m and m.group(1) not in own[path]:
                    keep = {m.group(1)}
                lines.append(respell(line, words, fields, away | keep))
        new = '\n'.join(lines)
        if new != text:
            open(path, 'w').write(new)
            changed += 1
    for path in sorted(glob.glob(f'{root}/crates/*/src/**/*.rt', recursive=True)):
        text = open(path).read()
        away = imported(text)
        lines, inside = [], 0
        for line in text.split('\n'):
            ghost, inside = source_line(line, inside)
            if ghost and re.match(r'^\s*(pub )?ghost use\s', line):
                m = re.match(r'^(\s*(?:pub )?ghost use\s+)([^\s{;]+)(.*)$', line)
                if OWN.match(m.group(2)):
                    line = m.group(1) + respell(m.group(2), words, {}, set()) + respell(m.group(3), words, fields, set())
            elif ghost:
                line = respell(line, words, fields, away)
            lines.append(line)
        new = '\n'.join(lines)
        if new != text:
            open(path, 'w').write(new)
            changed += 1
    print('respell:', changed, 'files')


main()
