#!/usr/bin/env python3
"""Respells the repository's own definitions and lemmas as today's Rattle does: words in snake
case, a dash only between two names, a prime as an apostrophe. Run once at the top of the
repository, after port.py. Prints the table old -> new. usage: tools/respell.py"""
import glob
import re
import sys

KIT = '/opt/rattle/rattle/'
# Lemmas that have the name that their definition takes here, each in its one file:
# file, lemma -> its new name (CONTRACT_STYLE.md: such a lemma "gets `_lem`"), and the definition.
LEMMAS = {
    ('crates/npy/proofs/Numerals.antt', 'is_digit'): ('is_digit_lem', 'isDigit'),
    ('crates/exact/proofs/MinusOne.antt', 'minus_one'): ('minus_one_lem', 'minusOne'),
}
# What a lemma of the library calls an operator, beside what Prelude and Common pass on.
OPERATORS = {'add', 'sub', 'mul', 'div', 'mod', 'pow', 'suc', 'zero', 'le', 'lt', 'eq', 'neg'}

TOKEN = re.compile(r'[^\s(){}\[\],;.λ⌜⌝"]+')
DECLARED = re.compile(r'^\s*(?:(?:abbrev|unfoldable|pub)\s+)*([^\s(){}\[\],;.λ⌜⌝"=]+)((?:\s*(?:\{[^{}]*\}|\([^()]*\)))*)\s*:(?:\s+(.*))?$')
NOTION = re.compile(r'^\s*(?:pub\s+)?(?:record|data)\s+([^\s(){}\[\],;.λ⌜⌝"=]+)')
USED = re.compile(r'\buse\s+([^\s{;]+?)\.?\{([^}]*)\}')
KEYWORDS = {'use', 'let', 'in', 'where', 'module', 'record', 'data', 'unfolding', 'abbrev', 'unfoldable', 'pub', 'mod', 'by', 'as'}


def files(*patterns):
    return sorted({f for p in patterns for f in glob.glob(p, recursive=True) if '/out/' not in f})


def read(path):
    with open(path, encoding='utf-8') as f:
        return f.read()


def code(line):
    """The line without its comment."""
    return re.split(r'(?:^|\s)--(?:\s|$)', line, maxsplit=1)[0]


def collect(antt):
    """Names declared here; those that are definitions, types or constructors; fields."""
    own, notions, fields = set(), set(), set()
    for path in antt:
        lines = [code(l) for l in read(path).split('\n')]
        text, block = '\n'.join(lines), None
        for line in lines:
            indent = len(line) - len(line.lstrip())
            if block is not None and line.strip() and indent <= block[0]:
                block = None
            m = NOTION.match(line)
            if m:
                notions.add(m.group(1))
                own.add(m.group(1))
                block = (indent, ' record ' in ' ' + line)
                continue
            m = DECLARED.match(line)
            if not m or m.group(1) in KEYWORDS:
                continue
            name, rest = m.group(1), m.group(3) or ''
            if path.endswith('Proof.antt') and (rest.startswith('tie.') or name.endswith('-spec') or f'Need-{name}' in text):
                continue
            own.add(name)
            if block is not None:
                (fields if block[1] else notions).add(name)
            elif indent == 0 and (line.startswith(('abbrev', 'unfoldable')) or '/specs/' in path):
                notions.add(name)
    return own, notions, fields


def kit_words(paths, crates):
    """Names that the repository uses of the library, and all that Prelude and Common pass on."""
    used, passed = set(), set()
    for path in paths:
        for module, names in USED.findall(read(path)):
            head = module.split('.')
            if head[0] in ('lib', 'mathlib') or head[0] == 'Rattle' and head[1] not in crates:
                used |= {n.split(' as ')[0].strip() for n in names.split(',')}
    for path in (KIT + 'std/specs/Prelude.antt', KIT + 'std/proofs/Common.antt'):
        for _, names in USED.findall(read(path)):
            passed |= {n.strip() for n in names.split(',')}
    return used, passed


def snake(part):
    if not part[:1].islower():
        return part
    return re.sub('(?<=[^_A-Z])[A-Z]', lambda m: '_' + m.group(0).lower(), part)


def table(own, notions, used, passed, tokens):
    words = {snake(n) for n in notions | passed if '-' not in n} | OPERATORS
    pairs = {q for n in passed for q in zip(n.split('-'), n.split('-')[1:])}

    def is_name(ends):
        return any(e in words or e[:1].isupper() or not e[:1].isalnum() for e in ends)

    def joined(left, right):
        ls, rs = left.split('_'), right.split('_')
        return (ls[-1], rs[0]) in pairs or is_name('_'.join(ls[i:]) for i in range(len(ls))) and is_name('_'.join(rs[:i + 1]) for i in range(len(rs)))

    def plain(name):
        return '-'.join(snake(p) for p in name.replace('′', "'").split('-'))

    ours = {n for n in own if n not in used and n not in passed and '◌' not in n}
    taken = own | used | passed | {plain(n) for n in ours}
    new = {}
    for name in sorted(ours):
        parts = plain(name).split('-')
        out = parts[0]
        for left, right in zip(parts, parts[1:]):
            out += ('-' if '' in (left, right) or joined(left, right) else '_') + right
        # a dash stays where the plain word is another's
        if '-' in name and (out in taken and out != plain(name) or any(name in t and out in t for t in tokens if out != name)):
            out = plain(name)
        taken.add(out)
        if out != name:
            new[name] = out
    return new


class Cited(dict):
    """The table for prose and edits: also a name that is declared no more, but is so once respelled."""
    def __init__(self, new, own, final):
        super().__init__(new)
        self.own, self.final = own, final

    def __contains__(self, name):
        return super().__contains__(name) or self.__missing__(name) != name

    def __missing__(self, name):
        if name in self.own or not ('-' in name[1:] or camel(name)):
            return name
        parts = [snake(p) for p in name.split('-')]
        return next((n for n in ('_'.join(parts), '-'.join(parts)) if n in self.final), name)


def respell(text, new, fields):
    def one(m):
        name = m.group(0)
        # after a dot stands a field; the rest there is made by Rattle, or a module
        if name not in new or text[m.start() - 1:m.start()] == '.' and name not in fields:
            return name
        return new[name]
    return TOKEN.sub(one, text)


def in_strings(text, work):
    """Applies work to what stands outside of strings."""
    return ''.join(p if i % 2 else work(p) for i, p in enumerate(re.split(r'("(?:[^"\\\n]|\\.)*")', text)))


def camel(name):
    return re.search('[a-z0-9][A-Z]', name) is not None and name[0].islower()


def ticked(text, new, fields):
    """Prose: any name in backticks, and camelCase names as whole words."""
    text = re.sub(r'`([^`\n]+)`', lambda m: '`' + respell(m.group(1), new, fields) + '`', text)
    return re.sub(r"(?<![\w.'/-])[a-z]\w*(?![\w'/(]|-\w|\.\w)", lambda m: new[m.group(0)] if camel(m.group(0)) and m.group(0) in new else m.group(0), text)


def main():
    crates = {f.split('/')[1] for f in files('crates/*')}
    antt = files('crates/*/specs/**/*.antt', 'crates/*/proofs/**/*.antt')
    rt = files('crates/*/src/**/*.rt')
    own, notions, fields = collect(antt)
    used, passed = kit_words(antt + rt, crates)
    new = table(own, notions, used, passed, [set(TOKEN.findall(read(p))) for p in antt + rt])
    # what port.py respelled already in antt, and prose and edits still spell as before
    final = {new.get(n, n) for n in own}
    cited = Cited(new, own, final)

    def antt_line(line, names=new):
        body = code(line)
        return in_strings(body, lambda t: respell(t, names, fields)) + ticked(line[len(body):], cited, fields)

    def rt_line(line):
        body, slash, rest = line.partition('//')
        return in_strings(body, lambda t: respell(t, new, fields)) + slash + ticked(rest, cited, fields)

    def edit_line(line):
        if line.startswith(('old:', 'new:')):
            return antt_line(line, cited)
        return ticked(line, cited, fields) if line.startswith('#') else line

    def prose_line(line):
        return ticked(line, cited, fields)

    done = [(antt, antt_line), (rt, rt_line), (files('crates/*/must-fail/*.edit'), edit_line),
            (files('README.md', 'CONTRIBUTING.md', 'docs/*.md', 'docs/check-promises', 'docs/landings/*.md', 'crates/*/README.md', 'oracle/**/*.md'), prose_line)]
    for paths, work in done:
        for path in paths:
            text = read(path)
            own_lemmas = {n: to for (f, n), (to, d) in LEMMAS.items() if f == path and d in new}
            if own_lemmas:
                text = '\n'.join(antt_line(l, own_lemmas) for l in text.split('\n'))
            after = '\n'.join(work(l) for l in text.split('\n'))
            if after != read(path) and '--dry' not in sys.argv:
                with open(path, 'w', encoding='utf-8') as f:
                    f.write(after)
    for name in sorted(new):
        print(f'{name} -> {new[name]}')


main()
