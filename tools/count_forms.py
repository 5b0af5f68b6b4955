#!/usr/bin/env python3
"""count_forms [--list]: counts the places in crates/*/src that docs/DESIGN-PASS.md speaks of, by its points; with --list each place, as FILE:LINE WHAT.
It goes by text: a place that it counts is one to look at. Run it at the top of a checkout, of any commit."""
import glob, re, sys

WORDS_OF_REFUSAL = r'(refusal|refused|checks|flags|handed|limits|choice)'
listing = '--list' in sys.argv[1:]
places = {}


def note(point, path, line, what):
    places.setdefault(point, []).append(f'{path}:{line} {what}')


def split_top(text):
    parts, depth, now = [], 0, ''
    for ch in text:
        if ch in '([{<':
            depth += 1
        if ch in ')]}>':
            depth -= 1
        if ch == ',' and depth == 0:
            parts.append(now.strip())
            now = ''
        else:
            now += ch
    if now.strip():
        parts.append(now.strip())
    return [re.sub(r'\s+', ' ', p) for p in parts if p]


def closing(text, at):
    """The place behind the bracket that closes the one before `at`."""
    depth = 1
    while depth and at < len(text):
        depth += text[at] in '([{'
        depth -= text[at] in ')]}'
        at += 1
    return at


for path in sorted(glob.glob('crates/*/src/**/*.rt', recursive=True)):
    text = open(path, encoding='utf8').read()
    code = re.sub(r'//[^\n]*', lambda m: ' ' * len(m.group(0)), text)
    line_of = lambda at: code.count('\n', 0, at) + 1
    # 1: own enums of two variants, tests of a number against 0 that hand it on, functions that answer such a number
    for m in re.finditer(r'^ *(?:pub )?enum (\w+)[^{\n]*\{', code, re.M):
        body = code[m.end():closing(code, m.end()) - 1]
        if len(split_top(body)) == 2:
            note('1a own enums of two variants', path, line_of(m.start()), m.group(1))
    for m in re.finditer(r'if (\w+) != 0 \{\s*return ([^;]*);', code):
        note('1b numbers that are tested and handed on', path, line_of(m.start()), m.group(1))
    # 3
    for m in re.finditer(r'^ *while ([^{\n]*)\{', code, re.M):
        body = code[m.end():closing(code, m.end()) - 1]
        counted = [v for v in re.findall(r'\b([a-z_]\w*)\b', m.group(1)) if re.search(rf'^ *{v} [-+]= 1;', body, re.M)]
        kind = '3a loops that count an index' if counted else '3b other while loops'
        note(kind, path, line_of(m.start()), m.group(1).strip())
    for m in re.finditer(r'^ *for [^{\n]*\{', code, re.M):
        note('3c for loops', path, line_of(m.start()), m.group(0).strip())
    # functions
    for m in re.finditer(r'^[ \t]*((?:pub )?(?:extern "C" )?(?:const )?)fn (\w+)(<[^(\n]*>)?\(', code, re.M):
        end = closing(code, m.end())
        args = [a for a in split_top(code[m.end():end - 1])]
        result = re.match(r'\s*->\s*([^\n{]*)', code[end:end + 300])
        result = result.group(1).strip() if result else ''
        name = m.group(2)
        if result == 'u32' and re.search(WORDS_OF_REFUSAL, name):
            note('1c functions that answer 0 or a refusal\'s number', path, line_of(m.start()), name)
        exported = 'extern' in m.group(1)
        types = [a.split(':', 1)[1].strip() for a in args if ':' in a]
        own = [t for t in types if re.fullmatch(r'[A-Z]\w*', t)]
        if not exported and len(args) == 1 and len(own) == 1 and re.fullmatch(r'(\[?[A-Z]\w*|u\d+|usize|i32)(<.*>)?', result) and not name.startswith(('read_', 'from')):
            note('4a functions of one value of a type of ours that answer another', path, line_of(m.start()), f'{name}: {types[0]} -> {result}')
        if re.match(r'(same|copy|copied|clear$|fill)', name):
            note('4b comparing, copying and clearing by hand', path, line_of(m.start()), name)
        if len(args) >= 8:
            note('5 functions of 8 parameters and more' + (' (exports)' if exported else ''), path, line_of(m.start()), f'{name} {len(args)}')
        arrays = [t for t in types if re.search(r'\[u\d+; 1024\]|\[u\d+; 64\]', t)]
        if len(arrays) >= 2:
            note('6a functions of parallel arrays' + (' (exports)' if exported else ''), path, line_of(m.start()), name)
        if any(re.fullmatch(r'(held|count|length|len|filled|lent|places|used): (usize|u32)', a) for a in args) and any('[' in t for t in types):
            note('6b functions of a buffer and a length beside it' + (' (exports)' if exported else ''), path, line_of(m.start()), name)
        for a in args:
            if re.fullmatch(r'(list|plain|kind|which|luma|due|coded|bypassed): (bool|usize|u32|u8)', a) and a.split(':')[0] in ('list', 'plain', 'kind', 'which'):
                note('7 functions of a switch', path, line_of(m.start()), f'{name} {a}')
for point in sorted(places):
    print(f'{len(places[point]):5}  {point}')
    if listing:
        for p in places[point]:
            print('         ' + p)
