#!/usr/bin/env python3
"""Spells the repository's own definitions and lemmas as today's Rattle spells words: in snake case, types in camel case.

    tools/port/respell.py        once, at the top of the repository, after the kit's port.py and before any edit by hand

A name is the repository's own if an .antt file of specs/ or proofs/ declares it (a function's answers aside: those names are Rattle's). What turns:
the code of .antt files, the clauses of .rt files, the lines `old:` and `new:` of must-fail edits and variants, and code spans of comments and pages.
A lemma that would get the name of a definition, of its file or of another, ends in `_lem`. Functions of src/, strings, inputs and outputs keep their names.
It prints each name that did not get the plain snake case of what it was.
"""
import collections, re, sys
from pathlib import Path

ROOT = Path(__file__).resolve().parent.parent.parent
WORD = r'[^\s(){}.;,@"«»:|`\[\]]+'
DECLARED = re.compile(rf'^( *)((?:(?:abbrev|pub|unfoldable|data|record) +)*)([(]?{WORD})((?: \{{[^{{}}\n]*\}}| \([^()\n]*\))*) :(?= |$)')
OWN_RESULT = re.compile(r'proofs/.*(Answers|Invariants)\.antt$')
# facts that were spelled like values, and a record that was spelled like no type
TYPES = {'So-far': 'SoFar', 'Inv-loop': 'InvLoop'}
# lemmas that the kit's script took for facts
LEMMAS = {'Sums-none': 'sums_none', 'Gathered-none': 'gathered_none', 'Filled-put': 'filled_put', 'Filled-more': 'filled_more', 'Stands-parts': 'stands_parts',
          'Begun-more': 'begun_more'}
SETS = {'nothing': 'Nothing', 'only': 'Only'}
SETS_HOME = 'Rattle.theory.specs.Rules'


def snake(name):
    return re.sub(r'(?<=[a-z0-9])([A-Z])', lambda m: '_' + m[0].lower(), name).replace('-', '_')


def code_of(line):
    """An antt line without its comment."""
    return re.sub(r'(^|\s)--(\s.*|$)', '', line)


crates = ROOT / 'crates'
texts = {file: file.read_text() for file in sorted(crates.rglob('*'))
         if file.is_file() and file.suffix in ('.antt', '.rt', '.edit', '.variant') and 'out' not in file.relative_to(crates).parts}
declared = collections.defaultdict(set)
fields = set()
for file, text in texts.items():
    if file.suffix != '.antt' or (OWN_RESULT.search(str(file.relative_to(ROOT))) and file.parent.name != 'proofs'):
        continue
    inside = head = None
    lines = text.split('\n')
    for line, following in zip(lines, [*lines[1:], '']):
        # a long type stands on the lines below its name
        code = code_of(line).rstrip() + (' :' if following.lstrip().startswith(': ') else '')
        found, depth = DECLARED.match(code), len(line) - len(line.lstrip())
        if line.strip() and inside is not None and depth <= inside:
            inside = None
        if re.match(r' *(pub )?record ', line):
            head = depth
        if head is not None and code_of(line).rstrip().endswith(' where'):
            inside, head = head, None
        elif found and inside is not None and depth == inside + 2:
            fields.add(found.group(3).lstrip('('))
        if found:
            name = found.group(3).lstrip('(')
            declared[name].add('definition' if {'abbrev', 'unfoldable'} & set(found.group(2).split()) else 'lemma')

# the words that stand in each file as code, to see where a new name would meet another
words = {}
for file, text in texts.items():
    if file.suffix == '.antt':
        text = '\n'.join(code_of(line) for line in text.split('\n'))
    elif file.suffix == '.rt':
        clauses = re.findall(r'(?m)^\s*ghost use.*|\b(?:requires|ensures)\b[^\n]*(?:\n[^\n{}]*\})?', text)
        parameters = [name for each in re.findall(r'\bfn \w+[^(]*\(([^)]*)\)', text) for name in re.findall(r'(\w+):', each)]
        text = '\n'.join(clauses + parameters)
    else:
        continue
    words[file] = set(re.findall(rf'(?<!\.){WORD}', text))

wanted = {name: snake(name) for name in declared
          if '◌' not in name and not name[0].isupper() and (('-' in name and re.search(r'\w-\w', name)) or re.search(r'[a-z0-9][A-Z]', name))}
taken = collections.defaultdict(list)
for name, new in wanted.items():
    taken[new].append(name)
new_name = TYPES | LEMMAS
for name, new in sorted(wanted.items()):
    meets = len(taken[new]) > 1 or any(name in there and new in there for there in words.values()) or new in declared
    if meets and not ('definition' in declared[name] and '-' not in name):
        new += '_lem'
    new_name[name] = new
twice = [new for new, count in collections.Counter(new_name.values()).items() if count > 1]
if twice:
    print('these names would meet:', *twice, sep='\n')
    sys.exit(1)
# a word of a file alone, an alias or a lemma that is not pub, that a definition's new name would meet there
alone = {}
for file, there in words.items():
    alone[file] = {new_name[name]: new_name[name] + '_lem' for name in there & set(new_name) if new_name[name] in there and new_name[name] not in new_name}
    for word, new in alone[file].items():
        print(f'{file.relative_to(ROOT)}: {word} is now {new}')
for name, new in sorted(new_name.items()):
    if new != snake(name) and name not in LEMMAS:
        print(f'{name} is now {new}')
new_name['orElse'], new_name['◌orElse◌'] = 'or_else', '◌or_else◌'

TOKEN = re.compile(rf'(?<!\.)(?<![\w-]){WORD}')


FIELD = re.compile(rf'(?<=\.){WORD}')
OF_A_MODULE = re.compile(rf'(\b[A-Z]\w*\.)({WORD})')


def turned(text, names):
    text = TOKEN.sub(lambda m: names.get(m[0], m[0]), text)
    text = OF_A_MODULE.sub(lambda m: m[1] + names.get(m[2], m[2]), text)
    return FIELD.sub(lambda m: names.get(m[0], m[0]) if m[0] in fields else m[0], text)


def spans(text, names):
    """The code spans of a comment or a page; there a name may stand after dots."""
    def one(m):
        return re.sub(WORD, lambda w: names.get(w[0], w[0]), m[0])
    return re.sub(r'`[^`\n]+`', one, text)


for file, text in texts.items():
    names = new_name | alone.get(file, {})
    # a library's name that is spelled like one of the repository's stays
    for path, items in re.findall(r'(?m)^use (\S+)\.\{([^}]*)\}', text):
        if not path.startswith('Rattle.'):
            names = {name: new for name, new in names.items() if name not in items.split(', ')}
    if file.suffix == '.antt':
        if f'{SETS_HOME}.{{' in text and re.search(rf'{re.escape(SETS_HOME)}\.\{{[^}}]*\b(nothing|only)\b', text) or file == crates / 'theory/specs/Rules.antt':
            names = names | SETS
        lines = []
        for line in text.split('\n'):
            code = code_of(line)
            lines.append(turned(code, names) + spans(line[len(code):], names))
        now = '\n'.join(lines)
    elif file.suffix == '.rt':
        now = '\n'.join(spans(line, names) if line.lstrip().startswith('//') else turned(line, names) for line in text.split('\n'))
    else:
        now = '\n'.join(re.sub(r'^(old: |new: )(.*)$', lambda m: m[1] + turned(m[2], names), line) if line.startswith(('old: ', 'new: ')) else spans(line, names)
                        for line in text.split('\n'))
    if now != text:
        file.write_text(now)

# in pages a name may have the older spelling of before the kit's script
after = {new for new in new_name.values()} | set(declared)
for page in [ROOT / 'README.md', *sorted((ROOT / 'docs').rglob('*.md'))]:
    text = page.read_text()

    def in_page(m):
        return re.sub(WORD, lambda w: new_name.get(w[0], snake(w[0]) if snake(w[0]) in after and w[0] != snake(w[0]) else w[0]), m[0])
    now = re.sub(r'`[^`\n]+`', in_page, text)
    if now != text:
        page.write_text(now)
print(f'{len(new_name)} names')
