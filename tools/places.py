"""Counts the places of the eight points of docs/DESIGN-PASS.md in crates/*/src, and with a point's number lists them: python3 tools/places.py [POINT]."""
import collections
import pathlib
import re
import sys

CRATES = pathlib.Path('crates')
SOURCES = sorted(CRATES.glob('*/src/*.rt'))


def lines():
    """Every line of code: comments, clauses and imports are no places."""
    for source in SOURCES:
        for number, text in enumerate(source.read_text().splitlines(), 1):
            if not re.match(r'\s*(//|ghost use|use |pub use|requires|ensures)', text):
                yield f'{source}:{number}', text.strip()


def matching(pattern):
    return [f'{place}: {text}' for place, text in lines() if re.search(pattern, text)]


def functions():
    """Name, head (parameters and clauses) and body of every function."""
    for source in SOURCES:
        text = source.read_text()
        for found in re.finditer(r'^( *)(?:pub )?(?:extern "C" )?fn (\w+).*?^\1\}', text, re.S | re.M):
            head, _, body = found.group(0).partition('\n' + found.group(1) + '{\n')
            yield f'{source}:{text.count(chr(10), 0, found.start()) + 1}', found.group(2), head, body


def parameters(head):
    inside = re.search(r'fn \w+(?:<[^>]*>)?\((.*?)\)(?: ->|\s*$|\s*\n)', head, re.S)
    return [p for p in re.split(r',\s*(?![^\[]*\])', inside.group(1).strip()) if p] if inside else []


def facts(head):
    """The facts that a function asks, names of parameters left out."""
    for clause in re.findall(r'requires (?:\w+ )?\{ (.*) \}$', head, re.M):
        for fact in re.split(r' × (?![^(]*\))', clause):
            yield re.sub(r'\b(now|old|self|result)\b\.?', '', fact).strip('() ')


def twins():
    """Functions that are one text when types, numbers, constants and the names they give are left out."""
    alike = collections.defaultdict(list)
    for place, name, head, body in functions():
        text = re.sub(r'//.*', '', ' '.join(parameters(head)) + body)
        text = re.sub(r'\b(u8|u16|u32|u64|usize|bool|[A-Z][A-Z_0-9]+|0x\w+|\d+)\b', '#', text)
        names = {}
        text = re.sub(r'\b[a-z_][a-z_0-9]*\b(?!\()', lambda m: names.setdefault(m.group(0), f'n{len(names)}'), text)
        if len(text) > 60:
            alike[re.sub(r'\s+|\b[a-z_]+(?=\()', '', text)].append(f'{place}: {name}')
    return [' = '.join(group) for group in alike.values() if len(group) > 1]


def together():
    many = [f'{place}: {name} has {len(parameters(head))} parameters' for place, name, head, _ in functions() if len(parameters(head)) > 5]
    asked = collections.defaultdict(set)
    for place, name, head, _ in functions():
        for fact in facts(head):
            asked[fact].add(f'{place}: {name}')
    return many + [f'{len(names)} functions ask: {fact}' for fact, names in sorted(asked.items()) if len(names) > 2]


def answers():
    files = sorted(CRATES.glob('*/proofs/**/*.antt'))
    count = sum(len(re.findall(r'^pub \S+ : goal\.', f.read_text(), re.M)) for f in files if f.name == 'Answers.antt')
    size = sum(len(f.read_text().splitlines()) for f in files if f.name in ('Answers.antt', 'Invariants.antt', 'Proof.antt'))
    walked = sum(f.name == 'Proof.antt' for f in files)
    return count, f'{count} answers to goals; {size} lines of Invariants, Answers and Proof; {walked} of the old form'


POINTS = {
    1: lambda: matching(r'^(pub )?(\w+: bool|number: u32|low: usize),$|^(pub )?enum |_KIND\b|\bform [=!]= \d|'
                        r'\bnumber: \d+,|\b(refuse|refused|no_point|not_laid|verdict|Refused)\(\d|-> i32'),
    2: twins,
    3: lambda: matching(r'\b(while|loop)\b'),
    4: lambda: matching(r'\b(of_byte|wide|index|less|smaller|larger|both|without|from_byte|choose_\w+|narrow|counts_of)\('),
    5: together,
    6: lambda: matching(r'^(pub )?count: usize,$|: &(mut )?\[(u64|u32|bool)\]|: &mut \[u8\], (at|r): usize|'
                        r'^(pub )?(bay|release|deadline|grams|numbers|weight|time|class_of): \[u(32|64); '),
    7: lambda: matching(r'\bfn\(|\bdyn\b|\b(step|mode) [=!]= '),
}

if len(sys.argv) > 1:
    print('\n'.join(POINTS[int(sys.argv[1])]()))
else:
    for point, places in POINTS.items():
        print(f'{point}: {len(places())}')
    print(f'8: {answers()[1]}')
