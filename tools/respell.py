#!/usr/bin/env python3
"""tools/respell.py: brings the repository's own definitions, lemmas and fields to snake case, as today's Rattle spells words.

Run once, after the toolchain's own scripts, at the top of the repository. A name that a file of specs/ or proofs/ declares or binds and that has a
dash or an inner capital (`count-grows`, `standsAt`) gets underscores (`count_grows`, `stands_at`), in definitions, proofs, clauses and
must-fail edits. Types and modules keep their capitals; a dash behind a capital is turned all the same (`Replaying-at`, `Replaying_at`).
Names of the library, names that the prover makes (in proofs/FUNCTION/), functions of src/, strings, inputs and outputs keep theirs. In
comments only names that cannot be English are turned: those with an inner capital, and those in backticks. Where two names would fall
together, the definition (the one with an inner capital, or the one that has underscores already) keeps the plain word, and the other gets
`_lem`, as the library does with a lemma that would have its function's name. It stops before it writes where a file would still have two
names in one."""
import collections
import os
import re
import sys

TOKEN = re.compile(r"[^\s(){}\[\];,.«»\"`]+")
DECLARED = re.compile(r"\s*(?:unfoldable |abbrev |pub |data |record |ruleset )*([^\s(){}:;,.«»]+)(?: \{[^}]*\})* :(?= |$)")
SHAPED = re.compile(r"\s*(?:pub |abbrev )*(?:data|record|ruleset) ([^\s(){}:;,.«»]+)")
IMPORT = re.compile(r"^(?:pub )?use ([^\s{};]+?)(?:\.\{([^}]*)\})?$")


def files(ending):
    for folder, folders, names in os.walk('crates'):
        folders[:] = sorted(f for f in folders if f != 'out')
        for name in sorted(names):
            if name.endswith(ending):
                yield os.path.join(folder, name)


def of_function(path):
    """Whether a file is the proof of a function, whose names follow what the prover makes."""
    parts = path.split('/')
    return parts[2] == 'proofs' and len(parts) > 4


def snake(name):
    """`standsAt` and `stands-at` as `stands_at`; a leading capital stays."""
    word = re.sub(r"(?<=[a-z0-9'₀-₉])([A-Z])", lambda m: '_' + m[1].lower(), name) if name[:1].islower() else name
    return word.replace('-', '_')


def without_path(line):
    """A line of imports as the path and the rest, other lines as nothing and the line."""
    found = re.match(r'((?:pub )?(?:ghost )?use [^{\s]*)(.*)', line)
    return (found[1], found[2]) if found else ('', line)


def bound(line):
    """The words of a line that are no field and no part of a path: names of variables among them."""
    said = '' if line.lstrip().startswith('--') else without_path(line)[1].split(' --')[0]
    return {m[0] for m in TOKEN.finditer(said) if said[m.start() - 1:m.start()] != '.'}


def declared(text):
    for line in text.split('\n'):
        if line.lstrip().startswith('--'):
            continue
        found = DECLARED.match(line) or SHAPED.match(line)
        if found:
            yield found[1]


def libraries(own):
    """The names that some file takes from a library, which keep their spelling."""
    kept = set()
    for path in files('.antt'):
        for line in open(path):
            found = IMPORT.match(line.rstrip('\n'))
            if found and found[2] and not (found[1].startswith('Rattle.') and found[1].split('.')[1] in own):
                kept |= {name.strip() for name in found[2].split(',')}
    return kept


def main():
    own = set(os.listdir('crates'))
    texts = {path: open(path).read() for ending in ('.antt', '.rt', '.edit') for path in files(ending)}
    kept = libraries(own)
    turned = {}
    for path, text in texts.items():
        if path.endswith('.antt') and not of_function(path):
            for name in declared(text):
                new = snake(name)
                if new != name and name not in kept and any(c.isalpha() for c in name) and not name.startswith('◌'):
                    turned[name] = new
    for path, text in texts.items():
        if path.endswith('.antt') and not of_function(path):
            for line in text.split('\n'):
                for name in bound(line):
                    if name not in kept and re.match(r"[a-z][\w']*(-\w|[A-Z])", name):
                        turned.setdefault(name, snake(name))
    plain = set()
    for path, text in texts.items():
        if path.endswith('.antt') and not of_function(path):
            plain |= {name for name in declared(text) if snake(name) == name}
    inner = {new for name, new in turned.items() if re.search("[a-z0-9'][A-Z]", name)}
    for name, new in list(turned.items()):
        if new in inner | plain and not re.search("[a-z0-9'][A-Z]", name):
            turned[name] = new + '_lem'
    shadowed = {name: name + '_lem' for name in plain & inner}
    local = collections.defaultdict(dict)
    for path, text in texts.items():
        if path.endswith('.antt') and of_function(path):
            taken = set(re.findall(r'\b(?:tie|goal)\.(?:Need-)?([^\s(){}\[\];,.]+)', text))
            for name in declared(text):
                new = snake(name)
                used_by_prover = name in taken or re.search(r'(?m)^%s : tie\.' % re.escape(name), text) or name.endswith('-spec') or name.startswith(('invariant-', 'decreases-'))
                if new != name and not used_by_prover and name not in kept:
                    local[path][name] = new
    imports = {path: {n.strip() for found in re.findall(r'(?m)^(?:pub )?(?:ghost )?use [^{\n]*\{([^}]*)\}', text) for n in found.split(',')} for path, text in texts.items()}
    for path, text in texts.items():
        if path.endswith('.antt'):
            names = {n: new for n, new in shadowed.items() if not of_function(path) or n in imports[path]}
            local[path] = {**names, **local[path]}
    bad = 0
    for path, text in texts.items():
        if not path.endswith('.antt'):
            continue
        names = {**turned, **local[path]}
        words = set()
        for line in text.split('\n'):
            words |= bound(line)
        for name in sorted(words & set(names)):
            if names[name] in words - set(names):
                print(f'{path}: {name} and {names[name]} would fall together')
                bad += 1
    news = collections.defaultdict(set)
    for name, new in turned.items():
        news[new].add(name)
    for new, olds in sorted(news.items()):
        if len(olds) > 1:
            print(f'{sorted(olds)} would be one: {new}')
            bad += 1
    if '--list' in sys.argv:
        for name, new in sorted(turned.items()):
            print(name, new)
        return 0
    if bad:
        return 1
    comment = {'.antt': '--', '.rt': '//', '.edit': '\0'}
    changed = 0
    for path, text in texts.items():
        names = {**turned, **local[path]}
        lines = []
        for line in text.split('\n'):
            mark = comment[os.path.splitext(path)[1]]
            at = line.find(mark)
            if at > 0 and mark == '--' and line[at - 1] not in ' ':
                at = -1
            code, said = (line, '') if at < 0 else (line[:at], line[at:])
            if path.endswith('.edit') and not line.startswith(('old: ', 'new: ', 'refused: ')):
                code, said = '', line
            path_of, code = without_path(code)
            code = path_of + TOKEN.sub(lambda m: names.get(m[0], m[0]), code)
            said = re.sub(r'`([^`]*)`', lambda m: '`' + TOKEN.sub(lambda w: names.get(w[0], w[0]), m[1]) + '`', said)
            said = TOKEN.sub(lambda m: names[m[0]] if m[0] in names and re.search('[a-z][A-Z]', m[0]) else m[0], said)
            lines.append(code + said)
        new = '\n'.join(lines)
        if new != text:
            with open(path, 'w') as out:
                out.write(new)
            changed += 1
    print(f'{len(turned)} names turned, in {changed} files')
    return 0


if __name__ == '__main__':
    sys.exit(main())
