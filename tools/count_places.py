#!/usr/bin/env python3
"""A second way to count the places of points 1 to 3 in src/: a small parser over enums, structs and functions.
usage: count_places.py [1|2|3|5]   at the top of the checkout"""
import difflib, glob, itertools, re, sys, collections

NUM = {'u8', 'u16', 'u32', 'u64', 'usize'}

def strip(t):
    t = re.sub(r'//[^\n]*', '', t)
    return re.sub(r'^ *(ghost use|use)[^;]*;', '', t, flags=re.M)

def close(t, i):                    # the place behind the bracket that opens at i
    pair = {'(': ')', '{': '}', '[': ']'}
    d, o, c = 0, t[i], pair[t[i]]
    while True:
        d += (t[i] == o) - (t[i] == c)
        i += 1
        if d == 0:
            return i

def items(t, kind):                 # (name, body) of enums or structs with braces
    for m in re.finditer(r'\b%s (\w+)\s*\{' % kind, t):
        e = close(t, m.end() - 1)
        yield m.group(1), t[m.end():e - 1]

def functions(t):                   # (name, parameters, result, clauses, body)
    for m in re.finditer(r'\bfn (\w+)(?:<[^>]*>)?\(', t):
        e = close(t, m.end() - 1)
        params = [p.strip() for p in split_commas(t[m.end():e - 1])]
        i, clauses = e, []
        r = re.compile(r'\s*->\s*([^\n{]*?)\s*(?=\n|\{|requires|ensures)').match(t, i)
        result = ''
        if r:
            result, i = r.group(1).strip(), r.end()
        while True:
            c = re.compile(r'\s*(requires|ensures)\s*\w*\s*\{').match(t, i)
            if not c:
                break
            i = close(t, c.end() - 1)
            clauses.append((c.group(1), t[c.end():i - 1].strip()))
        b = re.compile(r'\s*\{').match(t, i)
        if b:
            yield m.group(1), params, result, clauses, t[b.end():close(t, b.end() - 1) - 1]

def split_commas(s):
    out, d, cur = [], 0, ''
    for ch in s:
        d += ch in '([{<'
        d -= ch in ')]}>'
        if ch == ',' and d == 0:
            out.append(cur); cur = ''
        else:
            cur += ch
    if cur.strip():
        out.append(cur)
    return out

FILES = {p: strip(open(p).read()) for p in sorted(glob.glob('crates/*/src/*.rt'))}
short = lambda p: p.replace('crates/', '').replace('src/', '')

def point1():
    n = 0
    print('own enums of which one variant carries a value and another none or a number (Option or Result):')
    for p, t in FILES.items():
        for name, body in items(t, 'enum'):
            vs = split_commas(body)
            vs = [v.strip() for v in vs if v.strip()]
            full = [v for v in vs if '(' in v]
            if full and ('Refused(u8)' in vs or len(vs) == 2):
                n += 1; print('  %s: %s { %s }' % (short(p), name, ', '.join(vs)))
    print('enums of names alone or with more than two ways, without Debug, PartialEq or Eq:')
    for p, t in FILES.items():
        raw = open(p).read()
        for name, body in items(t, 'enum'):
            vs = [v.strip() for v in split_commas(body) if v.strip()]
            full = [v for v in vs if '(' in v]
            if not (full and ('Refused(u8)' in vs or len(vs) == 2)):
                d = re.search(r'#\[derive\(([^)]*)\)\]\s*(?:pub )?enum %s\b' % name, raw)
                if not d or 'Debug' not in d.group(1):
                    print('  %s: %s { %s } derives %s' % (short(p), name, ', '.join(vs), d and d.group(1)))
    print('structs with a flag beside a value:')
    for p, t in FILES.items():
        for name, body in items(t, 'struct'):
            fs = [f.strip() for f in split_commas(body) if f.strip()]
            if any(f.endswith(': bool') or re.search(r': \w*Outcome$|: \w*Answer$|: io::Result', f) for f in fs):
                n += 1; print('  %s: %s { %s }' % (short(p), name, ', '.join(fs)))
    print('functions that answer bool and change what they are lent:')
    for p, t in FILES.items():
        for f, ps, r, cl, b in functions(t):
            if r == 'bool' and any('&mut' in x for x in ps):
                n += 1; print('  %s: %s' % (short(p), f))
    print('functions whose answer is a number, one value of which means no (a return of 0, of a bare limit, or of a code):')
    for p, t in FILES.items():
        for f, ps, r, cl, b in functions(t):
            ens = ' '.join(c for k, c in cl if k == 'ensures')
            if r in NUM and (re.search(r'refusal|returned|Form|First|handed|cond \(|≡ 0 →|Reads', ens) or re.search(r'refus', f)):
                n += 1; print('  %s: %s -> %s' % (short(p), f, r))
            elif r in NUM and re.search(r'Err\(_\) => 0|=> 0,\s*\}', b):
                n += 1; print('  %s: %s -> %s' % (short(p), f, r))
    print('functions that take a refusal as a number:')
    for p, t in FILES.items():
        for f, ps, r, cl, b in functions(t):
            if 'refus' in f and 'n: u8' in ps:
                n += 1; print('  %s: %s' % (short(p), f))
    print('structs of which one value of a field means none (by their specs First..):')
    for p, t in FILES.items():
        for f, ps, r, cl, b in functions(t):
            ens = ' '.join(c for k, c in cl if k == 'ensures')
            if r and r not in NUM and 'First' in ens:
                n += 1; print('  %s: %s -> %s' % (short(p), f, r))
    print('in all', n)

def tokens(b):
    b = re.sub(r'\b(u8|u16|u32|u64|usize)\b', 'INT', b)
    b = re.sub(r'\b(0x[0-9A-Fa-f_]+|[0-9][0-9_]*)\b', 'N', b)
    return re.findall(r'\w+|[^\s\w]', b)

def abstract(ts):                   # names numbered in the order of their first use
    seen, out = {}, []
    for x in ts:
        if re.match(r'[a-z_]\w*$', x) and x not in ('let', 'mut', 'while', 'if', 'return', 'else', 'match', 'as', 'loop', 'for', 'in'):
            x = 'v%d' % seen.setdefault(x, len(seen))
        out.append(x)
    return out

def point2(limit=0.80, least=14):
    fs = [(p, f, abstract(tokens(b))) for p, t in FILES.items() for f, ps, r, cl, b in functions(t)]
    fs = [x for x in fs if len(x[2]) >= least]
    pairs = []
    for (p, f, a), (q, g, b) in itertools.combinations(fs, 2):
        m = difflib.SequenceMatcher(None, a, b, autojunk=False)
        if m.real_quick_ratio() >= limit and m.quick_ratio() >= limit and m.ratio() >= limit:
            pairs.append((m.ratio(), short(p) + ': ' + f, short(q) + ': ' + g))
    for r, a, b in sorted(pairs, reverse=True):
        print('  %.2f  %s  ~  %s' % (r, a, b))
    print('pairs', len(pairs), 'functions in them', len({x for _, a, b in pairs for x in (a, b)}))

def point3():
    hand, other, calls = [], [], 0
    for p, t in FILES.items():
        for f, ps, r, cl, b in functions(t):
            for m in re.finditer(r'\b(while|loop)\b([^{]*)\{', b):
                e = close(b, m.end() - 1)
                body, cond = b[m.end():e - 1], m.group(2).strip()
                names = re.findall(r'[a-z_]\w*', cond)
                steps = [v for v in names if re.search(r'\b%s (\+|-)= (\d+|lines|width)\b' % v, body) or
                         re.search(r'\b%s = \w+ \+ \w+;' % v, body)]
                (hand if steps else other).append('%s: %s   while %s   (%s)' % (short(p), f, cond, ', '.join(steps)))
            calls += len(re.findall(r'\bfor \w+ in\b|\.iter\(|\.chunks|\.fill\(|\.copy_from_slice\(|\.contains\(|\.zip\(|\.starts_with\(', b))
    print('loops that step a counter which their condition tests:', len(hand))
    for x in hand: print('  ' + x)
    print('other loops:', len(other))
    for x in other: print('  ' + x)
    print('for loops, iterator chains and library loops:', calls)

def point5():
    facts, pars = collections.defaultdict(list), collections.defaultdict(list)
    for p, t in FILES.items():
        for f, ps, r, cl, b in functions(t):
            here = set()
            for k, c in cl:
                if k == 'requires':
                    for part in re.split(r' × ', re.sub(r'\s+', ' ', c)):
                        s = part.strip()
                        while s.startswith('(') and s.endswith(')') and close(s, 0) == len(s):
                            s = s[1:-1].strip()
                        here.add(re.sub(r'\.(old|now|entry)\b', '', s))
            for h in here: facts[h].append(short(p) + ': ' + f)
            names = [x.split(':')[0].replace('mut ', '').strip() for x in ps if ':' in x]
            for n in (3, 4):
                for c in itertools.combinations(names, n): pars[c].append(f)
    print('facts in the requires of three functions or more:')
    for h, l in sorted(facts.items(), key=lambda x: -len(x[1])):
        if len(l) >= 3: print('  %2d  %s   (%s)' % (len(l), h, '; '.join(l)))

{'1': point1, '2': point2, '3': point3, '5': point5}[sys.argv[1]]()
