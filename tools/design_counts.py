#!/usr/bin/env python3
"""Counts, in crates/*/src, the places of each point of docs/DESIGN-PASS.md. Run at the top; -v lists the places.

1  enums with the shape of Option or Result, structs with a flag beside values, functions whose number is a refusal or 0, and uses of refusals as numbers
2  functions that differ only in a type, a size, a constant or names (the same tokens once those are blanked), by groups
3  loops that count an index by hand
4  conversions, choices and arithmetic of std written by hand or called as functions
5  parameters that travel together, and requires clauses that three or more functions share
6  buffers with a place beside them
7  a value passed on to choose what is done or which memory is meant
8  files of answers and their lines
"""
import re, glob, sys, collections
V = '-v' in sys.argv
def sources():
    for f in sorted(glob.glob('crates/*/src/**/*.rt', recursive=True)):
        yield f, open(f).read()
def functions():
    """(file, line, name, parameters, result, contract, body)"""
    for f, s in sources():
        for m in re.finditer(r'^( *)((?:pub(?:\(crate\))? )?(?:extern "C" )?fn )(\w+)(<[^>]*>)?\(', s, re.M):
            i = m.end(); depth = 1
            while depth:
                depth += {'(': 1, ')': -1}.get(s[i], 0); i += 1
            params = s[m.end():i - 1]
            close = re.compile(r'^%s\}$' % m.group(1), re.M)
            e = close.search(s, i)
            opening = re.compile(r'^%s\{$|\{$' % m.group(1), re.M).search(s, i)
            if not e or not opening: continue
            head = s[i:opening.start()]
            r = re.match(r'\s*-> ([^\n{]+)', head)
            body = s[opening.end():e.start()]
            if opening.start() > e.start(): continue
            yield f, s.count('\n', 0, m.start()) + 1, m.group(3), params, (r.group(1).strip() if r else ''), head, body
FNS = list(functions())
def show(name, places):
    print(f'{name}: {len(places)}')
    if V:
        for p in places: print('   ', p)
# 1
enums = []; flags = []; numbers = []; uses = []
for f, s in sources():
    for m in re.finditer(r'enum (\w+) \{\n((?:.*\n)*?)\}', s):
        body = re.sub(r'//.*', '', m.group(2))
        variants = re.findall(r'^    (\w+)', body, re.M)
        if len(variants) == 2 and re.search(r'\b(Nothing|Idle|Missing|None|Clear|End)\b', body): enums.append(f'{f} {m.group(1)}')
        elif re.search(r'\b(Refused|Unknown|Refuses)\b', body): enums.append(f'{f} {m.group(1)}')
    for m in re.finditer(r'struct (\w+)[^{;]*\{\n((?:.*\n)*?)\}', s):
        if re.search(r'\b(accepted|known|whole|found|valid): bool', m.group(2)): flags.append(f'{f} {m.group(1)}')
    for i, l in enumerate(s.split('\n'), 1):
        if re.search(r'refusals::[A-Z]', l) : uses.append(f'{f}:{i}')
    for m in re.finditer(r'//[^\n]*\b0 (?:for|where)[^\n]*\bnone\b[^\n]*\n', s): numbers.append(f'{f}:{s.count(chr(10), 0, m.start()) + 1}')
for f, l, n, p, r, h, b in FNS:
    if r == 'u32' and re.search(r'refus', n) and f'{f}:{l-1}' not in numbers: numbers.append(f'{f}:{l} {n}')
show('1 enums of the shape of Option or Result', enums)
show('1 structs with a flag beside values', flags)
show('1 numbers that are a refusal or 0', numbers)
show('1 uses of a refusal as a number', uses)
# 2
groups = collections.defaultdict(list)
for f, l, n, p, r, h, b in FNS:
    t = re.sub(r'//[^\n]*', '', p + '->' + r + '{' + b)
    names = {}
    def blank(m):
        w = m.group(0)
        if w in ('if', 'else', 'let', 'mut', 'while', 'for', 'in', 'loop', 'match', 'return', 'break', 'continue', 'true', 'false', 'as', 'Some', 'None', 'Ok', 'Err', 'self'): return w
        if re.fullmatch(r'u8|u16|u32|u64|usize|i32|i64', w): return 'T'
        if re.fullmatch(r'\d[\w]*', w): return 'N'
        return names.setdefault(w, f'v{len(names)}')
    key = re.sub(r'\s+', '', re.sub(r'\w+', blank, t))
    key = re.sub(r',(?=[)}\]])', '', key)
    if len(key) >= 40: groups[key].append(f'{f}:{l} {n}')
twins = [g for g in groups.values() if len(g) > 1]
show('2 groups of functions that are the same but for types, sizes, constants and names', twins)
print('  functions in them:', sum(map(len, twins)))
# 3
counted = []; other = []; fors = 0
for f, l, n, p, r, h, b in FNS:
    for m in re.finditer(r'\b(while [^{\n]*|loop) \{', b):
        w = m.group(1)
        # the loop's body
        i = m.end(); d = 1
        while d and i < len(b): d += {'{': 1, '}': -1}.get(b[i], 0); i += 1
        inner = b[m.end():i]
        (counted if re.search(r'\b\w+ [+-]= 1;', inner) and w != 'loop' else other).append(f'{f}:{l} {n}: {w}')
    fors += len(re.findall(r'\bfor [^{\n]* in ', b))
show('3 while loops that count by hand', counted)
show('3 other while and loop', other)
print('3 for loops:', fors)
# 4
hand = []
for f, s in sources():
    for i, l in enumerate(s.split('\n'), 1):
        if re.search(r'std::num::wrapping_|\bfn (wide\w*|smaller|least|bit|both|joined|low_word|high_word|one_if)\(', l) and not l.startswith('ghost'): hand.append(f'{f}:{i} {l.strip()[:80]}')
show('4 conversions, choices and arithmetic of std by hand', hand)
turns = []
for f, l, n, p, r, h, b in FNS:
    if re.fullmatch(r'\s*match \w+(\.\w+)? \{(?:[^{}]|\{[^{}]*\})*\}\s*', b) and (re.fullmatch(r'u32|u64|usize|bool', r) or re.fullmatch(r'\w+: u32', p.strip())) and len(re.findall('=>', b)) > 1: turns.append(f'{f}:{l} {n}')
show('4 tables from an enum to a number or a flag, or back', turns)
# 5
packs = {'data, code, log': r'\bdata\w*: &.*\bcode\w*: &.*\blog\w*: &', 'log, used': r'\blog\w*: &.*\bused\w*: u64', 'size, address, r, first, last': r'size: u32.*address: u32.*r: Registers.*first: u32.*last: u32', 'out, at': r'out: &(?:mut )?\[u8; 65536\],\s*at: usize', 'two boards': r'd1a: .*ub: u64', 'out and 14 buffers': r'log_before: .*code0_before: '}
for k, e in packs.items():
    show(f'5 functions that take {k} side by side', [f'{f}:{l} {n}' for f, l, n, p, r, h, b in FNS if re.search(e, p, re.S)])
facts = collections.Counter()
where = collections.defaultdict(list)
for f, l, n, p, r, h, b in FNS:
    for c in re.findall(r'requires(?: \w+)? \{ (.*?) \}\n', h, re.S):
        c = re.sub(r'\s+', ' ', c); facts[c] += 1; where[c].append(f'{f}:{l} {n}')
show('5 requires clauses that three or more functions share word for word', [f'{v} x {k}' for k, v in facts.items() if v >= 3])
# 6
show('6 functions with a buffer and a place beside it', [f'{f}:{l} {n}' for f, l, n, p, r, h, b in FNS if re.search(r'(?:out|output|buffer|numbers|ranges|block|res): &(?:mut )?\[\w+(?:; \w+)?\],[^:]*\b(at|to|used|n): ', p, re.S)])
# 7
show('7 functions that are told which memory is meant', [f'{f}:{l} {n}' for f, l, n, p, r, h, b in FNS if re.search(r'memory: Memory', p)])
show('7 closures and impl Fn', [f'{f}:{i}' for f, s in sources() for i, x in enumerate(s.split(chr(10)), 1) if re.search(r'\bF[nN](Once|Mut)?\(|\(\|\w*\|', x) and not x.lstrip().startswith('//')])
# 8
a = sorted(glob.glob('crates/*/proofs/**/Answers.antt', recursive=True)); v = sorted(glob.glob('crates/*/proofs/**/Invariants.antt', recursive=True))
lines = lambda fs: sum(len(open(x).read().split('\n')) - 1 for x in fs)
al = sorted(glob.glob('crates/*/proofs/**/*.antt', recursive=True))
print(f'8 files of answers: {len(a)}, {lines(a)} lines; of invariants: {len(v)}, {lines(v)} lines; all of proofs/: {lines(al)} lines')
print(f'functions: {len(FNS)}, lines of src/: {sum(s.count(chr(10)) for _, s in sources())}')
