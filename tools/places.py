#!/usr/bin/env python3
"""Lists where the code may be older in form than the language: the candidates of each point of docs/DESIGN-PASS.md.

usage: tools/places.py [COMMIT] [--list]     without a COMMIT, of the work tree; --list prints each candidate, else the counts alone

A candidate is not yet a place: each is read, and the page says what became of it.
"""
import collections, pathlib, re, subprocess, sys

FUNCTION = re.compile(r'^( *)(?:pub(?:\(\w+\))? )?fn (\w+)', re.M)


def sources(commit, folder, ending):
    """The files crates/*/FOLDER/**, by name."""
    if commit is None:
        return {str(p): p.read_text() for p in sorted(pathlib.Path('crates').glob(f'*/{folder}/**/*{ending}'))}
    names = subprocess.run(['git', 'ls-tree', '-r', '--name-only', commit, 'crates'], capture_output=True, text=True, check=True).stdout.split('\n')
    wanted = [n for n in names if re.match(rf'crates/\w+/{folder}/.*{re.escape(ending)}$', n)]
    return {n: subprocess.run(['git', 'show', f'{commit}:{n}'], capture_output=True, text=True, check=True).stdout for n in wanted}


def functions(text):
    """Each function of a file: its line, name, parameters with the result, clauses, body."""
    for m in FUNCTION.finditer(text):
        indent = m.group(1)
        rest = text[m.start():]
        body = re.search(rf'(?:\{{|^{indent}\{{)\n(.*?)^{indent}\}}', rest, re.S | re.M)
        semi = re.search(r';\n', rest)
        if body is None or (semi and semi.start() < body.start() and '{\n' not in rest[:semi.start()]):
            head, inside = rest[:semi.end()] if semi else rest, ''
        else:
            head, inside = rest[:body.start()], body.group(1)
        signature = re.split(r'\n\s+(?:requires|ensures)\b', head)[0]
        clauses = re.findall(r'(?:requires|ensures)(?: \w+)? (\{.*\})$', head, re.M)
        yield text[:m.start()].count('\n') + 1, m.group(2), signature, clauses, inside


def lines_like(files, pattern):
    found = []
    for name, text in files.items():
        for number, line in enumerate(text.split('\n'), 1):
            if not line.lstrip().startswith(('//', 'ghost', 'use')) and re.search(pattern, line):
                found.append(f'{name}:{number}: {line.strip()}')
    return found


def flags(files):
    """Functions that write and answer a bool: success or a refusal, told by a flag."""
    return [f'{n}:{line}: {f}' for n, t in files.items() for line, f, sig, _, _ in functions(t) if '&mut' in sig and re.search(r'-> bool\s*$', sig.strip())]


def shape(body):
    body = re.sub(r'//.*', '', body)
    body = re.sub(r'b?"[^"]*"|b?\'[^\']\'', 'S', body)
    body = re.sub(r'\b\d[\d_]*\b', 'N', body)
    return re.sub(r'\b[A-Za-z_]\w*\b', lambda m: m.group() if m.group() in KEPT else 'I', re.sub(r'\s+', ' ', body))


KEPT = set('if else match return let mut for while loop in self Some None Ok Err true false as fn'.split())


def twins(files):
    """Functions whose bodies have one shape: they may differ in names, types and constants alone."""
    groups = collections.defaultdict(list)
    for name, text in files.items():
        for line, f, _, _, body in functions(text):
            s = shape(body)
            if len(s.split()) >= 12:
                groups[s].append(f'{name}:{line}: {f}')
    return [' = '.join(g) for g in groups.values() if len(g) > 1]


def crate_of(name):
    return name.split('/')[1]


def repeated_clauses(files):
    """Clauses that stand in three or more functions of a crate."""
    seen = collections.defaultdict(set)
    for name, text in files.items():
        for line, f, _, clauses, _ in functions(text):
            for c in clauses:
                seen[crate_of(name), c].add(f)
    return [f'{crate}: {c}  ({len(fs)} functions)' for (crate, c), fs in seen.items() if len(fs) >= 3]


def travelling(files):
    """Pairs of parameters (name and type) that stand together in three or more functions of a crate."""
    seen = collections.defaultdict(set)
    for name, text in files.items():
        for line, f, sig, _, _ in functions(text):
            params = sorted(set(re.findall(r'\b(\w+: (?:&(?:\'\w+ )?(?:mut )?)?[\w:<>\[\]]+)', sig.split('->')[0])))
            for i, a in enumerate(params):
                for b in params[i + 1:]:
                    seen[crate_of(name), a, b].add(f)
    return [f'{crate}: {a}, {b}  ({len(fs)} functions)' for (crate, a, b), fs in seen.items() if len(fs) >= 3]


def points(commit):
    src = sources(commit, 'src', '.rt')
    answers = sources(commit, 'proofs', 'Answers.antt')
    proofs = sources(commit, 'proofs', '.antt')
    return {
        '1 enums of our own': lines_like(src, r'^(pub(\(\w+\))? )?enum \w+'),
        '1 flags': flags(src),
        '1 numbers for kinds and refusals, and sentinels': lines_like(src, r'Fault\(u8|\b4294967295\b|\b(Leaf|One)\(u8|-> u8$|\b(number|fault|layer|class|head|bit): u8\b|-> Option<\(u8, u8\)>'),
        '2 functions of one shape': twins(src),
        '3 while, loop, and for over a range': lines_like(src, r'\bwhile\b|\bloop \{|\bfor \w+ in [^{]*\.\.'),
        '3 enumerate, and a loop that answers': lines_like(src, r'\.enumerate\(\)') + [f'{n}:{line}: {f}' for n, t in src.items() for line, f, _, _, b in functions(t) if re.search(r'^ *for [^\n]*\{\n *if [^\n]*\{\n *(return|\w+ \+= 1)', b, re.M)],
        '4 equality, order, conversion by hand': lines_like(src, r'\.0 [=!]= \w+\.0|\bsame\(|fn (same_\w+|head_number|number|layer|letter|\w+_name|\w+_named|form_of|kind_of_\w+|leaf_head|one_head|of)\b'),
        '4 printing by hand': lines_like(src, r'format!|extend_from_slice\((b"|&?\w+\.as_bytes)'),
        '5 clauses in three functions or more': repeated_clauses(src),
        '5 parameters that travel together': travelling(src),
        '6 arrays and slices with a length beside, lists of indices': lines_like(src, r'^\s+(pub(\(\w+\))? )?\w+: (\[[^\]]+; \w+\]|&\'a mut \[T\])|^\s+(pub(\(\w+\))? )?(count|len|length): usize,'),
        '7 tables of steps and functions': lines_like(src, r'\bdyn\b|\bfn\(|&\'static \[(?!u8)'),
        '8 answers': [f'{n}: {m}' for n, t in answers.items() for m in re.findall(r'^pub (\S+) :', t, re.M)],
        '8 lines of proofs': [line for t in proofs.values() for line in t.split('\n')],
    }


def main():
    args = [a for a in sys.argv[1:] if a != '--list']
    for point, found in points(args[0] if args else None).items():
        print(f'{len(found):5}  {point}')
        if '--list' in sys.argv and not point.startswith('8'):
            for place in found:
                print(f'         {place}')


main()
