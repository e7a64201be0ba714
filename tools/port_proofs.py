#!/usr/bin/env python3
"""Turns the proofs by hand of a crate, proofs/F/Proof.antt, to Invariants.antt and Answers.antt.

usage: python3 tools/port_proofs.py CRATE_DIR NAMES_JSON [F ..]
"""
import json, os, re, sys

NAMECH = r'[^\s(){}.;,@"«»]'
TOK = re.compile(r'--[^\n]*|«[^»]*»|' + NAMECH + r'+|\s+|.', re.S)

def norm(s):
    return re.sub(r'[-_]', '', s)

def same(old, seg):
    return norm(old) == norm(seg) or seg.endswith('_lem') and norm(old) == norm(seg[:-4])

def split_decls(text):
    """Top-level blocks: (comments, lines)"""
    lines = text.split('\n')
    blocks, cur, comm = [], None, []
    for ln in lines:
        if not ln.strip():
            if cur is not None and cur: cur.append(ln)
            continue
        if ln.startswith('--'):
            if cur: blocks.append(cur); cur = None
            comm.append(ln); continue
        if ln[0] not in ' \t})':
            if cur: blocks.append(cur)
            cur = comm + [ln]; comm = []
        else:
            if cur is None: cur = comm; comm = []
            cur.append(ln)
    if cur: blocks.append(cur)
    if comm: blocks.append(comm)
    return blocks

def head(block):
    for ln in block:
        if not ln.startswith('--'): return ln
    return ''

def group(blocks):
    """joins signature, unfolding and equations of one name"""
    out = []
    for b in blocks:
        h = head(b)
        if h.startswith('use ') or h.startswith('open '):
            out.append(['use', None, b]); continue
        m = re.match(r'((?:abbrev |pub |unfoldable |mutual )*)(' + NAMECH + r'+)((?: \{[^{}\n]*\})*) :(?= |$)', h)
        if m:
            out.append(['sig', m[2], b]); continue
        if out and out[-1][0] == 'sig':
            out[-1][2] = out[-1][2] + b; continue
        out.append(['other', None, b])
    return out

def split_args(s):
    """arguments of an application: atoms, parenthesised"""
    args, i, n = [], 0, len(s)
    while i < n:
        if s[i].isspace(): i += 1; continue
        j = i; depth = 0
        while j < n and (depth or not s[j].isspace()):
            if s[j] in '({[': depth += 1
            elif s[j] in ')}]': depth -= 1
            j += 1
        args.append(s[i:j]); i = j
    return args

class Fn:
    def __init__(self, d):
        self.d = d
        self.places = {}
        byname = d['places_by_name']
        for p, nn in zip(d['places'], byname):
            self.places[p[0]] = p
        self.needs = d['needs']
        self.asked = d['asked_at']
        self.warn = []

    def parent(self, p):
        return self.places[p][1] if p in self.places else None

    def step(self, p, seg):
        q = self.step_place(p, seg)
        return self.places[q][2][1] if q is not None else None

    def step_place(self, p, seg):
        q = p
        first = True
        while q is not None and q in self.places:
            old, new = self.places[q][2]
            if old and (same(old, seg) or (first and same(new, seg))):
                return q
            q = self.parent(q); first = False
        return None

    def arm(self, p, seg, rest):
        """the path of an arm's field: c.match.keys1 is c.in-0.is"""
        names = [x[0] for x in self.d['places']]
        best = None
        q = p
        while q is not None and q in self.places:
            a = self.d['arms'][names.index(q)]
            if a:
                for newf, oldstep, oldpath in a[2]:
                    if same(oldstep, seg) and rest[:len(oldpath)] == oldpath:
                        if best is None or len(oldpath) > best[0]:
                            best = (len(oldpath), [a[0], newf] + rest[len(oldpath):])
                if best and best[0] > 0: return best[1]
            q = self.parent(q)
        return best[1] if best else None

    def clause(self, p, seg, rest):
        """names of clauses: .ensures.1.0 is .ensures.second"""
        q = self.step_place(p, seg)
        names = [x[0] for x in self.d['places']]
        if rest[:1] == ['auto'] and q:
            callee = self.places[q][3]
            ps = self.d['params'].get(callee) if callee else None
            k, tail = 0, rest[1:]
            while tail[:1] == ['1']:
                k += 1; tail = tail[1:]
            if ps and tail[:1] == ['0'] and k < len(ps):
                return ['auto', ps[k]] + tail[1:]
            return rest
        cl = self.d['clauses'][names.index(q)]
        if not cl or not cl.get('fields') or rest[:1] != ['ensures']: return rest
        fields = cl['fields']
        tail = rest[1:]
        k = 0
        while k < len(fields) - 1 and tail[:1] == ['1']:
            k += 1; tail = tail[1:]
        if k < len(fields) - 1:
            if tail[:1] != ['0']: return rest
            tail = tail[1:]
        return ['ensures', fields[k]] + tail

KEEP = {'args', 'requires', 'ranges', 'lifetimes', 'type_inv', 'utf8', 'blocks', 'well_formed'}

def transform(fn, body, var, place, warn, nokeep=False):
    """body text with var at place turned to flat paths of c"""
    alias = {var: place}
    toks = TOK.findall(body)
    out = []
    i = 0
    def path_at(i):
        segs = []
        j = i + 1
        while j + 1 < len(toks) and toks[j] == '.' and re.match(NAMECH + r'|«', toks[j+1]) and not toks[j+1].isspace():
            segs.append(toks[j+1]); j += 2
        return segs, j
    def resolve(p, segs):
        k = 0
        while k < len(segs) and segs[k] == 'before':
            p = fn.parent(p); k += 1
        return p, segs[k:]
    while i < len(toks):
        t = toks[i]
        if t == 'let':
            # let X = PATH in
            j = i + 1
            while toks[j].isspace(): j += 1
            name = toks[j]
            k = j + 1
            while toks[k].isspace(): k += 1
            if toks[k] == '=':
                k += 1
                while toks[k].isspace(): k += 1
                if toks[k] in alias:
                    segs, e = path_at(k)
                    e2 = e
                    while e2 < len(toks) and toks[e2].isspace(): e2 += 1
                    p, rest = resolve(alias[toks[k]], segs)
                    if e2 < len(toks) and toks[e2] == 'in' and not rest:
                        alias[name] = p
                        # swallow the let and following space
                        e2 += 1
                        while e2 < len(toks) and toks[e2].isspace(): e2 += 1
                        i = e2
                        continue
        prevdot = out and out[-1] == '.'
        if t in alias and not prevdot:
            segs, e = path_at(i)
            # a record field label, "x = "
            if t != var and re.match(r'\s*= ', ''.join(toks[i+1:i+4])) and ''.join(out).rstrip()[-1:] in ('{', ';'):
                out.append(t); i += 1; continue
            p, rest = resolve(alias[t], segs)
            if p is None:
                warn.append(f'path out of the walk: {t}.{".".join(segs)}')
            if not rest:
                out.append('c' if segs or t != var else 'c')
                i = e; continue
            if rest[0] == 'pre' and fn.step(p, 'pre') is None: rest = ['requires'] + rest[1:]
            if rest[0] == 'well-formed': rest = ['well_formed'] + rest[1:]
            s = rest[0]
            if s in KEEP and fn.step(p, s) is None or s in ('args', 'requires', 'ranges'):
                out.append('c.' + '.'.join(rest))
            else:
                new = fn.step(p, s)
                arm = fn.arm(p, s, rest[1:])
                if arm is not None:
                    out.append('c.' + '.'.join(arm))
                elif new is None and fn.step(p, s.lower()) is not None:
                    out.append('c.' + '.'.join([fn.step(p, s.lower())] + fn.clause(p, s.lower(), rest[1:])))
                elif new is None:
                    warn.append(f'no step {s} at {p}')
                    out.append('c.' + '.'.join(rest))
                else:
                    tl = fn.clause(p, s, rest[1:])
                    if new.startswith('if-') or new.endswith('-test'): tl = [{'taken': 'true', 'left': 'false'}.get(x, x) if i2 == 0 else x for i2, x in enumerate(tl)]
                    out.append('c.' + '.'.join([new] + tl))
            i = e; continue
        out.append(t); i += 1
    return ''.join(out)

def loop_body(body, args, vars_, changed):
    n = len(vars_)
    table = {}
    for a, v, ch in zip(args[:n], vars_, changed):
        table[a] = ('l.initial.' if ch else 'l.') + v
    for a, v in zip(args[n:], [v for v, ch in zip(vars_, changed) if ch]):
        table[a] = 'l.' + v
    toks = TOK.findall(body)
    out = []
    depth = 0
    shadow = []
    for k, t in enumerate(toks):
        if t in '([{' and len(t) == 1: depth += 1
        elif t in ')]}' and len(t) == 1:
            depth -= 1
            shadow = [(x, dd) for x, dd in shadow if dd <= depth]
        if t in ('λ', '(') and not (out and out[-1] == '.'):
            mm = re.match(r'λ ((?:\([^:()]*:[^()]*\) ?|[^\s.()]+ ?)+)\.', ''.join(toks[k:])) if t == 'λ' else re.match(r'\(([^:()\n]*) : [^()]*\) →', ''.join(toks[k:]))
            if mm:
                if t == 'λ':
                    names = re.findall(r'\(([^:()]*):', mm[1]); names = [y for x in names for y in x.split()] + re.sub(r'\([^()]*\)', ' ', mm[1]).split()
                    shadow += [(x, depth) for x in names]
                else: shadow += [(x, depth - 1) for x in mm[1].split()]
        if t in table and any(x == t for x, dd in shadow):
            out.append(t); continue
        if t in table and not (out and out[-1] == '.'):
            # a field label of a record: NAME : or NAME =
            rest = ''.join(toks[k+1:k+4])
            prev = ''.join(out).rstrip()[-1:]
            if re.match(r'\s*[:=] ', rest) and prev in '{;':
                out.append(t)
            else:
                out.append(table[t])
        else:
            out.append(t)
    return ''.join(out)

def convert(path, key, d, crate):
    text = open(path, encoding='utf-8').read()
    fn = Fn(d)
    warn = fn.warn
    decls = group(split_decls(text))
    uses = [b for k, n, b in decls if k == 'use']
    sigs = {n: b for k, n, b in decls if k == 'sig'}
    # the spec
    m = re.search(r'tie\.spec\b(.*)', text, re.S)
    if not m: return None, ['no tie.spec']
    s = m[1]
    # up to the closing paren of (tie.spec ...)
    depth = 0; end = len(s)
    for i, ch in enumerate(s):
        if ch in '({[': depth += 1
        elif ch in ')}]':
            depth -= 1
            if depth < 0: end = i; break
    args = split_args(s[:end])
    loops = d['loops']
    invs, meas = [], []
    rest = []
    sigtype = {}
    for n, b in sigs.items():
        t = '\n'.join(b)
        mm = re.search(r':\s*tie\.(\S+)', t)
        if mm: sigtype[n] = mm[1]
    for a in args:
        ty = sigtype.get(a, '')
        if ty.startswith('invariant') or ty.startswith('InvT'): invs.append(a)
        elif ty.startswith('decreases') or ty.startswith('MeasureT'): meas.append(a)
        else: rest.append(a)
    # more invariants typed otherwise
    needs = fn.needs
    if len(rest) != len(needs):
        warn.append(f'{len(rest)} arguments of the spec and {len(needs)} goals')
    newof = {}
    slot = {}
    for k, a in enumerate(rest):
        if a in sigs: slot.setdefault(a, []).append(k)
    olds = {norm(o): k for k, (o, nw) in enumerate(needs)}
    def need_index(a):
        ty = sigtype.get(a, '')
        mm = re.match(r'Need-(\S+)', ty)
        if mm:
            w = norm(mm[1])
            for cand in (w, re.sub(r'^overflow', '', w)):
                if cand in olds: return olds[cand]
            for o, k in olds.items():
                if w.endswith(o) and w[:len(w)-len(o)] in ('overflow','offsetbounds','bounds','nonzero'): return k
        return None
    answers = []
    inline = []
    named = set()
    for k, a in enumerate(rest):
        if a in sigs:
            idx = need_index(a)
            if idx is None:
                if len(rest) == len(needs): idx = k
                else:
                    warn.append(f'no goal found for {a}: {sigtype.get(a)}'); continue
            elif len(rest) == len(needs) and idx != k and len(slot[a]) == 1:
                warn.append(f'{a}: by name {idx}, by place {k}'); idx = k
            answers.append((idx, a)); named.add(a)
        else:
            mm = re.match(r'\(λ (.*?)\.\s+(.*)\)$', a, re.S)
            if mm and re.sub(r'\s+', ' ', mm[2]) == 'search rules': continue
            if len(rest) != len(needs):
                warn.append(f'inline answer at {k} of {len(rest)}: {a}'); continue
            inline.append((k, a))
    out_inv, out_ans = [], []
    renamed = {a: needs[i][1] for i, a in answers}
    mod = re.search(r'use (Rattle\.\S+)\.Tie as tie', text)
    base = mod[1] if mod else ''
    imports = []
    for b in uses:
        t = '\n'.join(b)
        if re.search(r'\.(Tie as tie|Statement\.\{statement\})', t): continue
        imports.append(t)
    used_inv = set(invs) | set(meas)
    main_spec = None
    for n, b in sigs.items():
        if re.search(r'statement M', '\n'.join(b)): main_spec = n
    helpers_inv = set()
    munf = None
    if main_spec:
        mm = re.search(r'^unfolding .*$', '\n'.join(sigs[main_spec]), re.M)
        if mm: munf = mm[0]
    for k, a in enumerate(rest):
        mm = re.match(r'\(λ (.*?)\.\s+(.*)\)$', a, re.S) if a not in sigs else None
        if munf and mm and re.sub(r'\s+', ' ', mm[2]) == 'search rules' and 'κs' not in mm[1].split() and len(rest) == len(needs): inline.append((k, a))
    # invariants
    loopsby = {norm(o[0]): (o, vs, ch) for (o, vs), ch in zip(loops, d['changed'])}
    for a in invs + meas:
        b = sigs[a]
        ty = sigtype[a]
        kind, lname = re.match(r'(invariant|decreases|InvT|MeasureT)[-_]?(.*)', ty).groups()
        kind = {'InvT': 'invariant', 'MeasureT': 'decreases'}.get(kind, kind)
        if norm(lname) not in loopsby:
            warn.append(f'no loop {lname}'); continue
        o, vs, ch = loopsby[norm(lname)]
        new = o[1]
        comm = [l for l in b if l.startswith('--')]
        body = '\n'.join(l for l in b if not l.startswith('--'))
        mm = re.search(r'^(?:abbrev )?' + re.escape(a) + r' ([^=:\n]*?) =(.*)', body, re.S | re.M)
        eq = mm
        if not eq: warn.append(f'no equation of {a}'); continue
        la = eq[1].split()
        unf = re.search(r'^unfolding .*$', body, re.M)
        if len(la) != len(vs) + sum(ch): warn.append(f'{a}: {len(la)} arguments for {len(vs)}+{sum(ch)}')
        nb = loop_body(eq[2].rstrip(), la, vs, ch)
        out_inv.append('\n'.join(comm + [f'abbrev pub {kind}-{new} : goal.{kind}-{new}'] + ([unf[0]] if unf else []) + [f'{kind}-{new} l ={nb}']))
    # helpers and answers, in the order of the file
    for k, n, b in decls:
        if k == 'use' or n == main_spec or n in used_inv: continue
        t = '\n'.join(b).rstrip()
        if n in named:
            idxs = [i for i, a in answers if a == n]
            for i in dict.fromkeys(idxs):
                new = needs[i][1]
                place = fn.asked[i][0]
                body = '\n'.join(l for l in b if not l.startswith('--'))
                comm = [l for l in b if l.startswith('--')]
                unf = re.search(r'^unfolding .*$', body, re.M)
                eq = re.search(r'^' + re.escape(n) + r' ([^=:\n]*?)=(?= |$|\n)(.*)', body, re.S | re.M)
                if not eq: warn.append(f'no equation of answer {n}'); continue
                la = eq[1].split()
                var = la[0] if la else 'c'
                nb = transform(fn, eq[2].rstrip(), var, place, warn)
                for o2, n2 in renamed.items():
                    if o2 != n2: nb = re.sub(r'(?<![\w.\'-])' + re.escape(o2) + r'(?![\w\'-])', n2, nb) if re.search(r'(?<![\w.\'-])' + re.escape(o2) + r' c\b', nb) else nb
                if re.sub(r'\s+', ' ', nb).strip() in ('search rules', 'search needs') and not unf: continue
                more = ''.join(' ' + x for x in la[1:] if x != 'κs')
                out_ans.append('\n'.join(comm + [f'pub {new} : goal.{new}'] + ([unf[0]] if unf else []) + [f'{new} c{more} ={nb}']))
        else:
            if 'tie.' in t or re.search(r'\bLts\b', t): warn.append(f'helper {n} names the walk')
            out_ans.append(t)
    for k, a in inline:
        mm = re.match(r'\(λ (.*?)\.\s+(.*)\)$', a, re.S)
        new = needs[k][1]
        if not mm:
            # a lemma given as the answer
            out_ans.append(f'pub {new} : goal.{new}\n{new} c = {a} c'); warn.append(f'an answer that is {a}'); continue
        var = mm[1].split()[0]
        more = ''.join(' ' + x for x in mm[1].split()[1:] if x != 'κs')
        nb = transform(fn, ' ' + mm[2], var, fn.asked[k][0], warn)
        out_ans.append(f'pub {new} : goal.{new}\n' + (munf + '\n' if munf else '') + f'{new} c{more} ={nb}')
    res = {}
    if out_inv:
        res['Invariants.antt'] = '\n'.join(imports + [f'use {base}.Given as goal']) + '\n\n' + '\n\n'.join(out_inv) + '\n'
    if any('goal.' in x for x in out_ans):
        res['Answers.antt'] = '\n'.join(imports + [f'use {base}.Goals as goal']) + '\n\n' + '\n\n'.join(out_ans) + '\n'
    return res, warn

def main():
    crate, names = sys.argv[1], sys.argv[2]
    only = sys.argv[3:]
    d = json.load(open(names))
    cname = os.path.basename(os.path.abspath(crate))
    for folder, dirs, files in sorted(os.walk(os.path.join(crate, 'proofs'))):
        if 'Proof.antt' not in files: continue
        f = os.path.relpath(folder, os.path.join(crate, 'proofs'))
        if only and f not in only: continue
        key = f'Rattle-{cname}-proofs.' + f.replace('/', '.') + '.Lts'
        p = os.path.join(folder, 'Proof.antt')
        if key not in d:
            print(f'{f}: no names ({key})'); continue
        try:
            res, warn = convert(p, key, d[key], cname)
        except Exception as e:
            print(f'{f}: failed: {e!r}'); 
            if os.environ.get('DEBUG'): raise
            continue
        for w in warn: print(f'{f}: {w}')
        if res is None: continue
        for n, t in res.items():
            with open(os.path.join(folder, n), 'w', encoding='utf-8') as o: o.write(t)
        os.remove(p)

main()
