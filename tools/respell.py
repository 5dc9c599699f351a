#!/usr/bin/env python3
"""Brings the repository's own names to today's spelling:  respell.py ROOT   (once, on what the kit's port.py has turned)

Definitions, lemmas, record fields, cases and locals in camelCase or with hyphens become snake_case, in .antt, in .rt and in
must-fail/*.edit. Functions, exported names and strings are in snake case already and stay. Where a definition and a lemma
come to one name, the definition keeps it and the lemma gets `_lem`; some are chosen by hand (HAND, PLACES). Words that the
standard library has taken since get another name (WORDS); `All` is its `AllByRecursion`, word for word, so that one is cited.
Clauses that port.py had to name get a name that says what they promise (CLAUSES). The list of names, old and new, is
written to the path that RESPELL_NAMES gives, where it is set."""
import collections
import glob
import os
import re
import sys

ROOT = sys.argv[1] + '/crates'
TOKEN = re.compile(r"[A-Za-zℕℤ_][A-Za-z0-9_'ℕℤ₀-₉?→≡≢≤]*(?:-[A-Za-z0-9_'ℕℤ₀-₉?→≡≢≤]+)*")
CAMEL = re.compile(r'(?<=[a-z0-9])([A-Z])')

# Two names that fall together: these were chosen by hand. A case of the claim keeps its plain name.
HAND = {
    'list-of': 'list_of_followed',
    'ownsDocument': 'documents_owner',
    'ownsList': 'lists_owner',
    'grant-there': 'grant_at_key',
    'line-there': 'line_at_key',
    'every-All': 'every_all',
    'among-All': 'among_all',
}
# Laws whose names begin with a word of their own.
HAND |= {'All-' + law: 'all_' + law for law in (
    'append', 'at', 'both', 'cut', 'every', 'find', 'halve', 'hit', 'index', 'left', 'map', 'put', 'right', 'self', 'set')}
# Files, and in them a name in snake case that a definition comes to.
PLACES = [
    (r'/laws/specs/|/tables/specs/Climbs', 'steps_up', 'steps_up_lem'),
    (r'/changing_lines/', 'line_set', 'line_set_lem'),
    (r'/claim_cases/specs/Insiders', 'some_of', 'some_of_lem'),
    (r'/lines/specs/Groups', 'no_line', 'no_group_line'),
    (r'/laws/specs/(Blocks|There)|/acceptance/specs', 'laid_out', 'is_laid_well'),
]
# Words of the standard library with another meaning, or the same word for word; and an alias.
WORDS = {'sum': 'total', 'find': 'find_row', 'All': 'AllByRecursion'}
ALIAS = ('Pages·page', 'page_text')
STD_ALL = 'Rattle.std.specs.List.{AllByRecursion}'
# Clauses that port.py named, by crate.
CLAUSES = {
    'acceptance': {'result_value': 'refusal'},
    'asking': {'result_value': 'rows', 'ref_ptr_value': 'same_block', 'ref_ptr_value_2': 'offset'},
    'changing_grants': {'result_value': 'value', 'result_value_2': 'number'},
    'changing_lines': {'result_value': 'value', 'result_value_2': 'number'},
    'lines': {'rule_value': 'rule', 'everyone_value': 'everyone', 'group_value': 'comes_before'},
    'permission': {'steps_value': 'steps', 'privileges_value': 'privileges'},
}


def listed(*patterns):
    return sorted(f for p in patterns for f in glob.glob(ROOT + p, recursive=True) if '/out/' not in f)


SPECS = listed('/*/specs/**/*.antt')
LEMMAS = listed('/*/proofs/*.antt')
PROOFS = [f for f in listed('/*/proofs/**/*.antt') if f not in LEMMAS]
CODE = listed('/*/src/**/*.rt')
EDITS = listed('/*/must-fail/*.edit')
TEXT = {f: open(f).read() for f in SPECS + LEMMAS + PROOFS + CODE + EDITS}


def snake(name):
    return CAMEL.sub(lambda m: '_' + m.group(1).lower(), name).replace('-', '_')


def is_old(name):
    return name in HAND or (re.match(r'[a-z_]', name) and (CAMEL.search(name) or '-' in name))


def declared(text):
    """name, kind and, of a law or definition, what follows the colon"""
    for line in text.split('\n'):
        m = re.match(r'\s*deriving \S+ as (\S+)', line)
        if m:
            yield m.group(1), 'lemma', ''
        m = re.match(r'^\s*(?:(?:abbrev|unfoldable) )?(?:pub )?(?:record|data) (\S+)', line)
        if m:
            yield m.group(1), 'type', ''
            continue
        m = re.match(r"^\s*((?:abbrev |unfoldable |pub )*)([^\s:{}()]+)((?: [^\s:{}()]+)*) :(?:\s|$)(.*)", line)
        if m and not line.lstrip().startswith('--'):
            kind = 'definition' if re.search('abbrev|unfoldable', m.group(1)) else 'lemma'
            for name in [m.group(2)] + m.group(3).split():
                yield name, kind, m.group(4)


def names():
    """The old names with their new ones."""
    kinds = collections.defaultdict(set)
    for f in SPECS + LEMMAS:
        for name, kind, _ in declared(TEXT[f]):
            kinds[name].add(kind)
    for f in PROOFS:    # helpers of a proof by hand; what stands for a generated goal keeps its name
        for name, kind, what in declared(TEXT[f]):
            made = re.match(r'(tie|goal)\.|\{M : Type 1\} → statement', what)
            if kind != 'type' and not made and name not in kinds and '-' in name:
                kinds[name].add('lemma')
    reread = SPECS + LEMMAS + PROOFS + CODE
    bare = {f: re.sub(r'(--|//).*', '', TEXT[f]) for f in reread}
    local = {t for f in reread for t in TOKEN.findall(bare[f]) if re.match(r'[a-z][A-Za-z0-9_]*$', t) and CAMEL.search(t)}
    imports = re.compile(r'use (?:Rattle\.(?:std|core|std_\w+)|borrow|Prim|lib|native|mathlib|denote)\b[^{;\n]*\{([^}]*)\}')
    std = {n.strip() for f in reread for m in imports.finditer(TEXT[f]) for n in m.group(1).split(',')}
    old = ({n for n in kinds if is_old(n)} | local) - std
    together = collections.defaultdict(set)
    for name in old:
        together[HAND.get(name, snake(name))].add(name)
    placed = [p[1] for p in PLACES]
    out = dict(WORDS)
    for new, olds in together.items():
        for name in olds:
            lemma = '-' in name and (len(olds) > 1 or (new in kinds and new not in old and new not in placed))
            out[name] = HAND.get(name) or (new + '_lem' if lemma else new)
    return out


NAMES = names()


def taken(text, f):
    """The words of WORDS that a file takes from where they were defined, or defines."""
    own = {'Lists': ('sum', 'All'), 'Sorted': ('find',)}
    out = set()
    for module, names in own.items():
        for m in re.finditer(rf'use Rattle\.model\.specs\.{module}\.\{{([^}}]*)\}}', text):
            out |= set(names) & {n.strip() for n in m.group(1).split(',')}
        if f.endswith(f'/model/specs/{module}.antt'):
            out |= set(names)
    if f.endswith('.edit'):
        out = {'All', 'find'}
    return out


def words(text, f):
    here = taken(text, f)

    def new(m):
        word = m.group(0)
        return word if word in WORDS and word not in here else NAMES.get(word, word)

    def line(m):
        code, comment = m.group(1), m.group(2) or ''
        comment = re.sub(r'(`[^`]*`)|[^`]+', lambda c: TOKEN.sub(new, c.group()) if c.group(1) else plain(c.group()), comment)
        # in code a '-' is a minus, and a word in lower case alone is the code's own
        return (code_words(code) if f.endswith('.rt') else TOKEN.sub(new, code)) + comment

    def code_words(code):
        return re.sub(r"[A-Za-z_][A-Za-z0-9_']*", new, code)

    def plain(prose):
        return TOKEN.sub(lambda m: m.group(0) if m.group(0) in WORDS else new(m), prose)
    return re.sub(r'(?m)^(.*?)((?:--|//|^#).*)?$', line, text)


def cite_std(text, mark):
    """`AllByRecursion` comes from the standard library."""
    def line(m):
        kept = [n.strip() for n in m.group(3).split(',') if n.strip() != 'AllByRecursion']
        own = f'{m.group(1)}{m.group(2)}{{{", ".join(kept)}}}{mark}\n' if kept else ''
        return f'{m.group(1)}{STD_ALL}{mark}\n{own}'
    pattern = rf'(?m)^((?:ghost )?use )(Rattle\.model\.specs\.Lists\.)\{{([^}}]*\bAllByRecursion\b[^}}]*)\}}{mark}\n'
    return re.sub(pattern, line, text)


turned = 0
for f, before in TEXT.items():
    after = before
    if f.endswith('.antt'):
        for files, a, b in PLACES:
            if re.search(files, f):
                after = re.sub(rf"(?<![\w'-]){a}(?![\w'-])(?!\.Statement|\.Tie)", b, after)
    after = words(after, f).replace(*ALIAS)
    for a, b in sorted(CLAUSES.get(f[len(ROOT) + 1:].split('/')[0], {}).items(), key=lambda c: -len(c[0])):
        after = re.sub(rf"(?<![\w'])({a})(?![\w'])", b, after)
    if f.endswith('/model/specs/Lists.antt'):
        own = re.compile(r'  -- a fact about each row\n  abbrev pub AllByRecursion .*\n(?:  AllByRecursion .*\n)+\n')
        after = own.sub('', after)
        last = [m for m in re.finditer(r'(?m)^use .*\n', after)][-1]
        after = after[:last.end()] + f'use {STD_ALL}\n' + after[last.end():]
    elif not f.endswith('.edit'):
        after = cite_std(after, ';' if f.endswith('.rt') else '')
    if after != before:
        open(f, 'w').write(after)
        turned += 1
print(len(NAMES), 'names in', turned, 'files')
if os.environ.get('RESPELL_NAMES'):
    open(os.environ['RESPELL_NAMES'], 'w').write(''.join(f'{a}\t{b}\n' for a, b in sorted(NAMES.items())))
