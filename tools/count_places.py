#!/usr/bin/env python3
# Lists the places that docs/DESIGN-PASS.md counts, in the src/ of each crate (or of the crates named), a line each; --count gives the numbers alone.
import glob, os, re, sys
from collections import defaultdict

top = os.path.join(os.path.dirname(os.path.abspath(__file__)), '..')
args = [a for a in sys.argv[1:] if not a.startswith('--')]
counts_only = '--count' in sys.argv

def sources():
    for path in sorted(glob.glob(os.path.join(top, 'crates/*/src/**/*.rt'), recursive=True)):
        crate = os.path.relpath(path, top).split(os.sep)[1]
        if args and crate not in args:
            continue
        yield os.path.relpath(path, top), open(path, encoding='utf-8').read()

def block(text, start):
    # The text between the brace at or behind `start` and its partner.
    i = text.index('{', start)
    depth = 0
    for j in range(i, len(text)):
        if text[j] == '{':
            depth += 1
        elif text[j] == '}':
            depth -= 1
            if depth == 0:
                return text[i + 1:j], j
    return text[i + 1:], len(text)

def bare(text):
    # Without comments; string and byte literals emptied, so that no brace in them counts.
    text = re.sub(r"b?'(\\.|[^'\\])'", "'c'", text)
    text = re.sub(r'b?"(\\.|[^"\\])*"', '"s"', text)
    return re.sub(r'//[^\n]*', lambda m: ' ' * len(m.group()), text)

def line_of(text, at):
    return text.count('\n', 0, at) + 1

FN = re.compile(r'^[ ]*(?:pub(?:\(crate\))? )?fn (\w+)', re.M)

def functions(text):
    # Name, place, head and body: the clauses stand between the head and the body, and have braces too.
    for m in FN.finditer(text):
        head_end = text.index(')', m.end())
        i = m.end()
        depth = 0
        while True:
            c = text[i]
            if c == '(':
                depth += 1
            elif c == ')':
                depth -= 1
                if depth == 0:
                    head_end = i
                    break
            i += 1
        clauses = []
        at = head_end
        while True:
            n = re.compile(r'\b(requires|ensures)\b[^{]*').match(text, re.compile(r'\s*').match(text, at).end())
            if n is None:
                n = re.compile(r'[^{};]*?\b(requires|ensures)\b[^{]*').match(text, at)
                if n is None or '{' in n.group():
                    break
            inside, end = block(text, n.start())
            clauses.append((n.group(1), ' '.join(inside.split())))
            at = end + 1
        nxt = text.find('{', at)
        if nxt < 0:
            continue
        body, end = block(text, nxt)
        yield m.group(1), m.start(), text[m.start():head_end + 1], clauses, body

places = defaultdict(list)

def found(point, path, line, what):
    places[point].append(f'{path}:{line}: {what}')

params_of = defaultdict(list)
facts_of = defaultdict(list)
shapes = defaultdict(list)

for path, whole in sources():
    text = bare(whole)
    for m in re.finditer(r'^[ ]*(?:pub(?:\(crate\))? )?enum (\w+)', text, re.M):
        body, _ = block(text, m.end())
        variants = [v.strip() for v in re.split(r',\s*(?![^(]*\))', body) if v.strip()]
        held = sum(1 for v in variants if '(' in v or '{' in v)
        units = len(variants) - held
        names = [re.match(r'\w+', v).group() for v in variants if re.match(r'\w+', v)]
        if (held == 1 and units == 1) or 'Done' in names or 'Sound' in names or any(re.match(r'No[A-Z]|Bad|Malformed|Refused|Full', n) for n in names):
            found('1a enum of the shape of Option or Result', path, line_of(text, m.start()), f'{m.group(1)} {{ {", ".join(names)} }}')
    for m in re.finditer(r'^[ ]*(?:pub(?:\(crate\))? )?struct (\w+)[^{;]*\{', text, re.M):
        body, _ = block(text, m.start())
        for f in re.finditer(r'(\w+): (\w+|\[[^\]]*\])', body):
            name, kind = f.groups()
            if name == 'answer' or kind == 'bool':
                found('1b flag or answer with values beside it', path, line_of(text, m.start()), f'{m.group(1)}.{name}: {kind}')
        fields = dict(re.findall(r'(\w+): (\w+|\[[^\]]*\])', body))
        arrays = [n for n, k in fields.items() if k.startswith('[')]
        sizes = [n for n, k in fields.items() if k == 'usize' and re.search(r'len|count|size', n)]
        if arrays and sizes:
            found('6 buffer with a length beside it', path, line_of(text, m.start()), f'{m.group(1)}: {", ".join(arrays)} with {", ".join(sizes)}')
    for i, line in enumerate(whole.split('\n'), 1):
        if re.search(r'//.*(\b0 (where|for|if|of them|past)\b|else 0\b|or 0\b|KEY_COUNT\.|counts as 100)', line) or re.search(r'const NO_\w+: (usize|i32|u16|u8)', line):
            found('1c number that stands for none', path, i, line.strip())
        if re.search(r'\bconst [A-Z_0-9]+: usize = \d+;', line) and re.search(r'/(bounds|keys)\.rt$', path):
            found('1d number for a kind', path, i, line.strip())
    for m in re.finditer(r'\b(while|loop)\b[^;{]*\{', text):
        body, _ = block(text, m.start())
        step = re.search(r'\b(\w+) [+-]= 1;', body)
        what = text[m.start():m.end()].strip()
        if step:
            found('3a loop that counts by one', path, line_of(text, m.start()), what)
        else:
            found('3b other hand loop', path, line_of(text, m.start()), what)
    for name, at, head, clauses, body in functions(text):
        line = line_of(text, at)
        returns = len(re.findall(r'return (?:true|false);', body))
        if returns >= 2:
            found('4a truth by a ladder of returns', path, line, f'{name}, {returns} returns')
        if len(re.findall(r'\w+::\w+(?:\([^)]*\))? => \d+,', body)) >= 2 or re.fullmatch(r'(same|equal)_\w+|fold_case|wide|is_same|within|least|how_many', name):
            found('4b equality, order or conversion by hand', path, line, name)
        arms = re.findall(r'\w+::\w+(?:\([^)]*\))? => [a-z]\w*\(', body)
        if len(arms) >= 2 and re.search(r'match (class|key|kind|tag)\b', body):
            found('7 switch on which step to run', path, line, name)
        names = re.findall(r'(?:mut )?(\w+): ([^,()]+(?:\([^)]*\))?)', head)
        group = [n for n, _ in names]
        for k in (2, 3, 4):
            for j in range(len(group) - k + 1):
                params_of[tuple(group[j:j + k])].append(f'{path}:{line}: {name}')
        for kind, clause in clauses:
            if kind == 'requires':
                facts_of[clause].append(f'{path}:{line}: {name}')
        shape = re.sub(r'\b\d+\b', '0', re.sub(r'\b(?!if|else|while|for|in|match|return|let|mut|loop|true|false)[A-Za-z_]\w*', 'x', ' '.join(body.split())))
        if len(shape) > 60:
            shapes[shape].append(f'{path}:{line}: {name}')

for shape, where in shapes.items():
    if len(where) > 1:
        for w in where:
            places['2 function with the shape of another'].append(f'{w} ({len(where)})')
for clause, where in facts_of.items():
    if len(where) > 2:
        places['5a requires that three or more functions have'].append(f'{len(where)} times: {clause}')
seen = []
for group, where in sorted(params_of.items(), key=lambda x: -len(x[0])):
    if len(where) > 2 and len(group) > 2 and not any(set(group) <= set(g) for g in seen):
        seen.append(group)
        places['5b three or more parameters that travel together'].append(f'{len(where)} times: {", ".join(group)}')

answers = glob.glob(os.path.join(top, 'crates/*/proofs/**/Answers.antt'), recursive=True)
lines = sum(open(p, encoding='utf-8').read().count('\n') for p in answers if not args or os.path.relpath(p, top).split(os.sep)[1] in args)

for point in sorted(places):
    print(f'{point}: {len(places[point])}')
    if not counts_only:
        for p in places[point]:
            print('    ' + p)
print(f'8 lines of Answers.antt: {lines}')
