#!/usr/bin/env python3
"""python3 tools/places.py [COMMIT]: the places of the design pass's points, counted from the words of the sources.

Comments and strings are taken out first, and what is left is cut into words, so that this count stands beside the one by `git grep`:
enums, structs with ghost fields, loops by their kind, functions by their number of parameters, clauses that stand in three or more functions
of a crate, groups of four or more parameters that stand in three or more functions."""
import collections
import re
import subprocess
import sys

WORD = re.compile(r"'\w+\b|\w+|::|->|=>|\.\.=?|[^\s\w]")


def files(commit):
    names = subprocess.run(['git', 'ls-tree', '-r', '--name-only', commit, 'crates'], capture_output=True, text=True, check=True).stdout
    for name in names.split():
        if re.fullmatch(r'crates/\w+/src/\w+\.rt', name):
            yield name, subprocess.run(['git', 'show', commit + ':' + name], capture_output=True, text=True, check=True).stdout


def bare(text):
    text = re.sub(r'//[^\n]*', '', text)
    return re.sub(r'"(?:\\.|[^"\\])*"', '""', text)


def closing(words, i, open_, close):
    depth = 0
    while True:
        depth += (words[i] == open_) - (words[i] == close)
        if depth == 0:
            return i
        i += 1


def parts(words):
    out, depth, part = [], 0, []
    for w in words:
        depth += (w in '([{<') - (w in ')]}>')
        if w == ',' and depth == 0:
            out.append(part)
            part = []
        else:
            part.append(w)
    return [''.join(p) if len(p) < 2 else ' '.join(p) for p in out + [part] if p]


def count(commit):
    n = collections.Counter()
    clauses, groups, longest = collections.Counter(), collections.Counter(), []
    for name, text in files(commit):
        words = WORD.findall(bare(text))
        crate = name.split('/')[1]
        for i, w in enumerate(words):
            if w == 'enum':
                n['enums'] += 1
            if w == 'ghost' and words[i + 2] == ':' and words[i + 3] == '{':
                n['ghost fields'] += 1
            if w in ('while', 'loop') and words[i - 1] in '{};':
                n['loops by a condition'] += 1
            if w == 'for' and words[i - 1] in '{};' and 'in' in words[i:i + 12]:
                n['loops over items'] += 1
                head = words[i:i + words[i:].index('{')]
                if '..' in head or '..=' in head:
                    k = head.index('in')
                    if head[k + 1] != '&' and '[' not in head[k:head.index('..') if '..' in head else head.index('..=')]:
                        n['loops over items'] -= 1
                        n['loops over numbers'] += 1
            if w == 'fn' and re.fullmatch(r'\w+', words[i + 1]):
                n['functions'] += 1
                a = words.index('(', i)
                b = closing(words, a, '(', ')')
                ps = parts(words[a + 1:b])
                n['parameters'] += len(ps)
                longest.append((len(ps), crate + ' ' + words[i + 1]))
                for k in range(len(ps) - 3):
                    groups[(crate, tuple(ps[k:k + 4]))] += 1
                j = b
                while words[j] != '{' or words[j - 1] in ('requires', 'ensures') or words[j - 2] in ('requires', 'ensures'):
                    if words[j] in ('requires', 'ensures') or words[j] == ';':
                        if words[j] == ';':
                            break
                        o = words.index('{', j)
                        e = closing(words, o, '{', '}')
                        if words[j] == 'requires':
                            clauses[(crate, ' '.join(words[o + 1:e]))] += 1
                        j = e
                    j += 1
    for key in ('enums', 'ghost fields', 'functions', 'parameters', 'loops by a condition', 'loops over numbers', 'loops over items'):
        print(f'{key}: {n[key]}')
    print('functions of ten parameters and more:', sum(k >= 10 for k, _ in longest), '; the most:', max(longest))
    print('clauses that stand in three functions of a crate and more:', sum(k >= 3 for k in clauses.values()))
    print('groups of four parameters that stand in three functions of a crate and more:', sum(k >= 3 for k in groups.values()))
    if '--list' in sys.argv:
        for (crate, c), k in sorted(clauses.items(), key=lambda x: -x[1]):
            if k >= 3:
                print('  clause', crate, k, c)
        for (crate, g), k in sorted(groups.items(), key=lambda x: -x[1]):
            if k >= 3:
                print('  group', crate, k, '; '.join(g))


count(next((a for a in sys.argv[1:] if not a.startswith('-')), 'HEAD'))
