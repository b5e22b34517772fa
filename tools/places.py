#!/usr/bin/env python3
"""The places of docs/DESIGN-PASS.md's points in crates/*/src, counted: python3 tools/places.py [COMMIT] [-v]

Each line is a point, what is looked for, and how many; -v lists them. It goes by text, and counts what looks like a place: which of them stays, and
why, stands beside it in the source and in docs/DESIGN-PASS.md."""
import re, subprocess, sys
from collections import defaultdict

args = [a for a in sys.argv[1:] if a != '-v']
verbose = '-v' in sys.argv
commit = args[0] if args else None


def sh(*a):
    return subprocess.run(a, capture_output=True, text=True, check=True).stdout


def files(pattern):
    names = sh('git', 'ls-tree', '-r', '--name-only', commit).split('\n') if commit else sh('git', 'ls-files', '-co', '--exclude-standard').split('\n')
    return sorted(n for n in names if re.fullmatch(pattern, n))


def text(name):
    return sh('git', 'show', f'{commit}:{name}') if commit else open(name).read()


SRC = {f: text(f) for f in files(r'crates/[^/]+/src/.*\.rt')}
PROOFS = {f: text(f) for f in files(r'crates/[^/]+/proofs/.*\.antt')}


def found(pattern, of=SRC, skip=None):
    hits = []
    for f, s in of.items():
        for i, line in enumerate(s.split('\n'), 1):
            if line.lstrip().startswith('//') or line.lstrip().startswith('--') or (skip and re.search(skip, line)):
                continue
            for _ in re.finditer(pattern, line):
                hits.append(f'{f}:{i}: {line.strip()[:110]}')
    return hits


def say(point, what, hits):
    print(f'{point:<3}{what:<92}{len(hits):>5}')
    if verbose:
        for h in hits:
            print('      ', h)


def enums():
    out = []
    for f, s in SRC.items():
        for m in re.finditer(r'enum (\w+)[^{]*\{(.*?)\n\}', s, re.S):
            body = re.sub(r'//.*', '', m.group(2))
            body = re.sub(r'\{[^}]*\}', '()', body)
            body = re.sub(r'\([^)]*\)', '()', body)
            variants = [v.strip() for v in body.split(',') if v.strip()]
            out.append((f, m.group(1), variants))
    return out


E = enums()
say(1, 'enums of two variants, one or both with a value', [f'{f}: {n} {v}' for f, n, v in E if len(v) == 2 and any('()' in x for x in v)])
say(1, 'flags with a value beside them (has_x or present, and its value)', found(r'\b(has_\w+|present): bool'))
say(1, 'refusals by number (Refused(3), refuse(u, 3), a number 0 for none)', found(r'Refused\((0x)?\d+\)|refuse\(\w+, \d+\)|fn (turned_away|refusal_in)\b'))
say(1, 'kinds by number (arms of a match on octets)', found(r'^\s*\[?0x[0-9a-f]{2}\b[^=]*=>|^\s*\[0x[0-9a-f]{2}\b.*\.\.[^=]*=>'))
say(1, 'states by number (compared with a literal)', found(r'\b(s|state|state\(u\)|u\.state|state\(\)) (==|!=|<) \d\b|\b\d < (s|state|u\.state)\b'))

by_name = defaultdict(list)
for f, s in SRC.items():
    # functions of a trait and of its impls have one name by design
    body = re.sub(r'^(pub )?trait .*?^}|^impl.*? for .*?^}', '', s, flags=re.S | re.M)
    for m in re.finditer(r'fn (\w+)', body):
        by_name[m.group(1)].append(f)
twice = {n: fs for n, fs in by_name.items() if len(fs) > 1}
say(2, 'names of functions that stand in more than one module', sorted(twice))
say(2, 'functions that have such a name', [f'{n}: {f}' for n, fs in sorted(twice.items()) for f in fs])
say(3, 'loops with `while` or `loop`', found(r'^\s*(while|loop)\b'))
say(3, 'loops with `for`', found(r'^\s*for\b'))
say(3, 'iterator chains and slice methods in place of a loop', found(r'\.(iter|iter_mut|chunks_exact|windows|position|contains|starts_with|copy_from_slice|copy_within|fill|all|any|zip|rev)\('))
say(4, 'octets of a number by / 256 and % 256, numbers by 256 *', found(r'/ 256|% 256|256 \*|\* 256', skip=r'ensures|requires|ghost'))
say(4, 'casts with `as`', found(r'\bas (u8|u16|u32|u64|usize)\b', skip=r'ensures|requires|ghost'))
say(4, 'own words for && and || (both, either)', found(r'\b(both|either)\(', skip=r'fn (both|either)|ensures|requires'))
say(4, 'equality, conversion and number functions by hand', found(
    r'fn (alike|is_stopped|wide|wide16|wide_16|high|low|two|two_at|least|past|power|bit_of|joined|fault_number|refusal_number|octet_at|both|either|half|has_octet|has_number)\b'))
say(5, 'clauses `length u ≡ 618`', found(r'length (u|unit|image)\.(old|now) ≡ 618'))
say(5, 'clauses `Ready ..`', found(r'\bReady \(', skip='ghost use'))
say(5, 'clauses `Reads frame h n`', found(r'\bReads (\w+\.)*frame'))
say(5, 'clauses `1024 ≤ length out`', found(r'1024 ≤ length out'))
say(5, 'clauses `at + N ≤ length out`', found(r'at \+ [^≤×]*≤ length out'))
say(5, 'parameters frame, header, extensions together', found(r'frame: &\[u8\], h: Header, n: usize'))
say(5, 'parameters out and at together', found(r'out: &mut \[u8\], at: usize'))
say(5, 'parameters out and pen together', found(r'out: &mut \[u8\], pen: Pen'))
say(6, 'an array or slice with its length beside it (name and letters, ids and n, kept and n)', found(r'(name: \[u8; 32\], letters|(w|ids): \[u16; 8\], n|kept: \[u8; 554\], n)'))
say(6, 'fields that are an array with a count in another field', found(r'pub (name|waiting|kept): \[u'))
say(7, 'constant tables', found(r'^(pub )?const \w+: \['))
say(7, 'functions as values (closures, impl Fn, dyn)', found(r'\|\w*\||impl Fn|dyn '))
say(8, 'answers', found(r'^pub \S+ : goal\.', of=PROOFS))
say(8, 'files of proofs', list(PROOFS))
