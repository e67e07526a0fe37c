#!/bin/sh
# Counts the places of the eight points, at the top of a checkout.
#   sh tools/places.sh      point N: NUMBER (places that are named by several parts are counted once; 5: facts and bundles; 8: files), and its parts
#   sh tools/places.sh N    the list of point N: part, file:line, name
exec python3 - "$@" <<'PY'
import collections, glob, itertools, os, re, signal, sys
signal.signal(signal.SIGPIPE, signal.SIG_DFL)
want = sys.argv[1] if len(sys.argv) > 1 else ''
FILES = sorted(glob.glob('crates/*/src/**/*.rt', recursive=True))
TEXT = {f: open(f).read().split('\n') for f in FILES}
class Fn: pass
FNS = []
for f in FILES:
    ls = TEXT[f]
    for i, l in enumerate(ls):
        m = re.match(r'( *)(?:pub(?:\([a-z]+\))? )?(?:const )?(?:extern "C" )?fn (\w+)', l)
        if not m: continue
        ind, e = m.group(1), i
        while not re.match(ind + r'\}', ls[e]) and not (e == i and l.rstrip().endswith('}')): e += 1
        fn = Fn(); fn.file, fn.line, fn.name = f, i + 1, m.group(2)
        body = next((k for k in range(i, e + 1) if ls[k].rstrip() == ind + '{' or (ls[k].rstrip().endswith('{') and 'ensures' not in ls[k] and 'requires' not in ls[k])), i)
        fn.head = ' '.join(x.strip() for x in ls[i:body + 1])
        fn.clauses = [x.strip() for x in ls[i:body] if re.match(r' *(requires|ensures)', x)]
        fn.body = [re.sub(r'//.*', '', x) for x in ls[body + 1:e]]
        sig = re.sub(r'(requires|ensures) .*', '', fn.head)
        depth, cur, ps = 0, '', []
        inner = sig[sig.index('(') + 1:] if '(' in sig else ''
        for ch in inner:
            if ch in '([<': depth += 1
            if ch in ')]>' :
                if ch == ')' and depth == 0: break
                depth -= 1
            if ch == ',' and depth == 0: ps.append(cur.strip()); cur = ''
            else: cur += ch
        if cur.strip(): ps.append(cur.strip())
        fn.params = [re.sub(r'^mut ', '', p) for p in ps if p]
        r = re.search(r'\) -> (.*?) *(\{|$)', sig); fn.result = r.group(1).strip() if r else '()'
        fn.at = '%s:%d %s' % (f, i + 1, fn.name)
        FNS.append(fn)
def owner(f, n):
    o = [x for x in FNS if x.file == f and x.line <= n]
    return o[-1].name if o else '-'
def grep(pat, files=r'', not_=None, lines=TEXT):
    return ['%s:%d %s | %s' % (f, i + 1, owner(f, i + 1), l.strip()) for f in FILES if re.search(files, f)
            for i, l in enumerate(lines[f]) if re.search(pat, l) and not (not_ and re.search(not_, l)) and not l.lstrip().startswith('//') and not l.startswith('ghost')]
def named(pat, files=''): return [x.at for x in FNS if re.fullmatch(pat, x.name) and re.search(files, x.file)]
P = collections.OrderedDict((n, []) for n in '12345678')
def part(n, key, title, places): P[n].append((key, title, places))

# ---- point 1
FAIL = r'^    (Refused|Bad|None|End|Unknown)\b'
enums = []
for f in FILES:
    for i, l in enumerate(TEXT[f]):
        m = re.match(r'(?:pub )?enum (\w+)', l)
        if m:
            j = i
            while TEXT[f][j] != '}': j += 1
            if any(re.match(FAIL, x) for x in TEXT[f][i:j]): enums.append((m.group(1), '%s:%d %s' % (f, i + 1, m.group(1))))
NAMES = sorted({e for e, _ in enums if e != 'Word'}); ANY = '(?:' + '|'.join(NAMES or ['\\b\\B']) + ')'
part('1', 'a', 'enums of the shape of Option or Result', [p for _, p in enums])
same, turned, other = [], [], []
for f in FILES:
    ls = TEXT[f]
    for i, l in enumerate(ls):
        m = re.search(r'let ' + ANY + r'::\w+(?:\(.*\))? = (\w+) else', l)
        if not m: continue
        nxt, p = ls[i + 1].strip(), '%s:%d %s | %s  %s' % (f, i + 1, owner(f, i + 1), l.strip(), ls[i + 1].strip())
        if nxt == 'return %s;' % m.group(1): same.append(p)
        elif re.search(r'why_|::Bad;|::Refused\(|return (answer|verdict|refusal)\(|bad\(', nxt): turned.append(p)
        else: other.append(p)
part('1', 'b', 'let-else that hands the same refusal on (what ? does)', same)
part('1', 'c', 'let-else that hands it on as another enum or answer (? with From, or map_err)', turned)
part('1', 'd', 'let-else with an answer of its own', other)
part('1', 'e', 'match arms over those enums', grep(r'^\s+' + ANY + r'::\w+(\(.*\))? =>'))
part('1', 'f', 'functions that take such an enum (to take it apart, or to thread it through)', [x.at + ' | ' + ', '.join(p for p in x.params if re.search(r': ' + ANY + '$', p)) for x in FNS if any(re.search(r': ' + ANY + '$', p) for p in x.params)])
part('1', 'g', 'flag beside a value: fields and parameters is_, takes_, negative: bool', grep(r'\b(is_\w+|takes_\w+|negative): bool') + grep(r'^    Value\(bool, u64\)'))
part('1', 'h', 'a number that stands for "none" or "refused"', named('packed|su_code|su16_code|value_code|decimal_digit|hex_digit|lost|some_read'))
part('1', 'i', 'numbers for kinds: letters of a row, number of an answer, element', [x.at + ' | ' + ', '.join(p for p in x.params if re.match(r'(kind|kinds|number|element|sec_element|pri_element|e): ', p)) for x in FNS if '/promises_' not in x.file and any(re.match(r'(kinds?: |number: u32|(pri_|sec_)?element: u|e: u)', p) for p in x.params)])
part('1', 'j', 'answers of a kind as u32: the calls and what hands them on', [x.at for x in FNS if '/promises_' not in x.file and x.result == 'u32' and any(re.match(r'answer: &mut', p) for p in x.params)])
part('1', 'k', 'the numbers of the elements: constants', grep(r'^pub const \w+: u8 = \d+;', 'bits/src/element.rt'))

# ---- point 2
TY = {'u8', 'u16', 'u32', 'u64', 'usize', 'i8', 'i16', 'i32', 'i64', 'isize', 'bool'}
def toks(x, loose):
    src = re.sub(r'(requires|ensures)( \w+)? \{[^}]*\}', '', x.head) + '\n' + '\n'.join(x.body)
    src = re.sub(r'b"[^"]*"', 'LIT', src)
    ts = re.findall(r'[A-Za-z_]\w*(?:::[A-Za-z_]\w*)*|\d[\w]*|[^\s\w]', src.replace(',\n', '\n'))
    out, ren = [], {}
    for k, t in enumerate(ts):
        nx = ts[k + 1] if k + 1 < len(ts) else ''
        if t == ',' and nx in (')', ']', '}'): continue
        last = t.split('::')[-1]
        if t in TY: out.append('T')
        elif re.match(r'\d', t): out.append('N')
        elif re.fullmatch(r'[A-Z][A-Z0-9_]*', last) and len(last) > 1: out.append('K')
        elif re.match(r'[A-Z]', last): out.append('C')
        elif t in ('fn', 'pub', 'let', 'mut', 'if', 'else', 'return', 'while', 'for', 'in', 'match', 'as', 'loop', 'break', 'impl', 'true', 'false', '_'):
            if t != 'pub': out.append(t)
        elif '::' in t and not loose: out.append(t if nx != '(' else t.split('::')[-1])
        elif out and out[-1] == '.' and not loose: out.append(t)
        elif nx == '(' and not loose and not (out and out[-1] == 'fn'): out.append(t)
        else: out.append(ren.setdefault(t, 'v%d' % len(ren)))
    return ' '.join(out)
def groups(loose, least):
    g = collections.OrderedDict()
    for x in FNS:
        if 'promises' in x.file or 'friscurella_c' in x.file: continue
        if len(x.body) < 1: continue
        k = toks(x, loose)
        if len(k.split()) < least: continue
        g.setdefault(k, []).append(x)
    return [v for v in g.values() if len(v) > 1]
strict = groups(False, 20)
part('2', 'a', 'same text but for types, constants and names of locals', ['group %d of %d: %s' % (k + 1, len(v), x.at) for k, v in enumerate(strict) for x in v])
seen = {x.at for v in strict for x in v}
wide = [v for v in groups(True, 45) if not all(x.at in seen for x in v)]
part('2', 'b', 'same shape, the called functions and fields differ too (over-counts: see counts.md)', ['group %d of %d: %s' % (k + 1, len(v), x.at) for k, v in enumerate(wide) for x in v])
part('2', 'c', 'the same work at another type, size or constant, by name', named('pow2|one_line|start|refusal', r'^(?!.*promises)') + named('window|word', 'reader/src/lib|writer/src/store') + named('signed', 'cases|codes|lines') + named('su|su16|f', '^crates/(writer|reader)/src/lib') + named('all|answered?', 'fields|part/|replay') + named('features|no_flags|no_data|ref_deltas|default_refs|each_strength|operating_points', 'crates/(segmentation|loop_filter|cdef|sequence_writer)(_reader)?/src/(write|read|points)'))
part('2', 'd', 'a twin by its name: why_*, one for each size of record', named(r'why_\w+') + named(r'(write|read|fill)_(quantization|segmentation|loop_filter|cdef|lr|restoration)_(numbers|params)', r'_numbers/|_reader/'))
part('2', 'e', 'one function for each part: programs and contexts', named(r'r?(quant|seg|lf|cdef|lr)', 'replay|part/') + named('list', 'part_listing') + named(r'\w+_context', r'(?<!promises_c)(?<!promises)(_numbers|/contexts)/'))
part('2', 'f', 'crates that say each call once more (promises_*)', [x.at for x in FNS if '/promises_' in x.file])

# ---- point 3
part('3', 'a', 'while with a hand-counted index or count', grep(r'^\s*while \(?(0 < )?\w+( as u32\))?( < | >|$| &&| \{)', not_=r'while 128'))
part('3', 'b', 'for i in 0..N', grep(r'^\s*for \w+ in 0\.\.'))
part('3', 'c', 'loop with a hand-counted end', grep(r'\bloop \{'))

# ---- point 4
part('4', 'a', 'equality and order', named('same|begins|same_flag', 'lines|writer/'))
part('4', 'b', 'and, or, least, clipping in functions of their own', named('either|any|all|both|smaller|clip3', r'bits|parts/|sequence_|words|show|segmentation'))
def rebuilt(x): return sum(1 for l in x.body if re.match(r'\s+(\w+): \w+\.\1,$', l)) > 1
part('4', 'c', 'copying: bytes by a loop or a helper; a struct field by field', named('copy|copied|lend', r'bits/|lines/|parts/') + named('all_signed|zero', 'cases') + [x.at for x in FNS if rebuilt(x) and x.name != 'copied' and re.search('cases/src/settings|lines/src/input|sequence_writer/src/write.rt', x.file)])
def conv(x):
    if '/promises_' in x.file or 'friscurella_c' in x.file or len(x.params) != 1 or 'Result' in x.result or ': ' not in x.params[0]: return False
    p = x.params[0].split(': ', 1)[1]
    return (re.match(r'[A-Z]', x.result) or re.match(r'\[', x.result)) and p.lstrip('&') != x.result
nums = 'signed|natural|int16|flag|number|limit|su16|su16_code|magnitude|bit|planes|width|plane_count|mark|sign|capped|plain|reads_part|has_place|minus_1|profile|used|verdict|settle|answer|tell|obu_header|operating_point|strengths'
part('4', 'd', 'conversion in a function of its own: one value to a struct, enum or array', [x.at + ' | %s -> %s' % (x.params[0].split(': ', 1)[1], x.result) for x in FNS if conv(x)])
part('4', 'e', 'conversion in a function of its own: other', [p for p in named(nums, r'bits|cases/src/signed|cases/src/word|lines/src/signed|/numbers/|_reader/src/(feature|place)|writer/src/(number|lib)|contexts|listing/src/frame|sequence/|sequence_numbers/src/(header|points)|cdef_numbers|fill/|starter|obu/src/answer|parts/src/place|friscurella/') if p.split()[0] not in {x.at.split()[0] for x in FNS if conv(x)} and not re.search(r'(fill|writer)/\S+ flag$', p)])
part('4', 'f', 'printing', named('text|decimal|signed|refusal|number|signed_number|size|line|binary|one_bit|hex|hex_byte|glyph|byte|number|more|more_signed|numbers|bad|heading|put_\\w+|sentence|counted|needed|bits_needed|place|element|name|copied|row|row_signed|written|record|part|params', r'codes/src/main|lines/src/answer|words/src|listing/src/(out|row|refusal)|replay/src/show|show/src|part/src|fields/src'))

# ---- point 5
facts = collections.OrderedDict()
for x in FNS:
    for c in x.clauses:
        m = re.match(r'requires(?: \w+)? \{ (.*) \}', c)
        if m:
            b = m.group(1)
            for q in (re.findall(r'\(([^()]*(?:\([^()]*\)[^()]*)*)\)(?= ×|$)', b) if '×' in b else [b]):
                facts.setdefault(re.sub(r'^\((.*)\)$', r'\1', q).strip(), []).append(x.at)
part('5', 'a', 'requires that three functions or more have', ['%d functions: %s: %s' % (len(v), k, '; '.join(v)) for k, v in sorted(facts.items(), key=lambda t: -len(t[1])) if len(v) > 2])
heads = collections.OrderedDict()
for x in [x for x in FNS if '/promises_' not in x.file and 'friscurella_c' not in x.file]:
    for c in x.clauses:
        m = re.match(r'ensures(?: \w+)? \{ (\w+)\b.* ((?:\S+\.(?:now|old|new|entry) |\w+ )*\S+) \}', c)
        if m and m.group(1) in ('Walked', 'Fills', 'Said', 'Writes', 'Tells', 'Put', 'lent', 'Completes', 'Answers', 'Holds'): heads.setdefault(m.group(1), []).append(x.at)
part('5', 'b', 'heads of ensures that three functions or more have', ['%d functions: %s' % (len(v), k) for k, v in heads.items() if len(v) > 2])
items = [(x, frozenset(p.replace('&mut ', '&') if False else p for p in x.params)) for x in FNS if '/promises_' not in x.file and 'friscurella_c' not in x.file]
sup = {}
for a, b in itertools.combinations(range(len(items)), 2):
    c = items[a][1] & items[b][1]
    if len(c) > 1: sup.setdefault(c, None)
clos = {c: [x for x, s in items if c <= s] for c in sup}
big = sorted(((c, v) for c, v in clos.items() if len(v) > 2 and not any(c < d and len(w) == len(v) for d, w in clos.items())), key=lambda t: (-len(t[1]), -len(t[0])))
part('5', 'c', 'all sets of parameters that ten functions or more share (the wide list; not in the sum)', ['%d functions: %s | %s' % (len(v), ', '.join(sorted(c)), ' '.join(sorted({x.file.split('/')[1] for x in v}))) for c, v in big if len(v) > 9])
BUNDLES = ['out: &mut .u8., c: Cursor', 's: &.u8., c: Cursor', 's: &.u8., c: Cursor, n: &mut .*', 's: &.u8., c: Cursor, v: &mut \\w+', 'rt: &impl Print, s: &.u8., c: Cursor', 'rt: &impl Print, s: &.u8., c: Cursor, n: &.*', 'element: u8, index: u8', 'element: u8, i(?:ndex)?: u8', 'width: u32, value: \\w+', 'out: &mut .u8., at: usize', 'line: &.u8., at: usize', 'line: &.u8., t: \\w+', 'rt: &impl Print, name: &.u8.', 'name: &.u8., index: Index', 'input: &.u8., place: u32, n: &mut .*|input: &.u8., place: u32, record: &mut .*', 'record: &.*, place: u32, out: &mut .u8., answer: .*', 'record: &.*, place: u32, input: &.u8., answer: .*', 'coded_lossless: bool, allow_intrabc: bool|all_lossless: bool, allow_intrabc: bool', 'has_model: bool, width: u32, has_delay: bool', 'profile: u32, twelve: bool', 'pri_element: u8, sec_element: u8', 'number: u32, first: u32, second: u32', 'chunk: &mut .u8., line: &mut .u8.', 'line: &.u8., buffer: &mut .u8., out: &mut .u8.|line: &.u8., at: usize, buffer: &mut .u8., out: &mut .u8.', 'planes: u32, p: \\w+|p: \\w+, context: \\w+', 'old: &.*, n: &mut .*|previous: &.*, n: &mut .*']
def has(x, b): return all(any(re.fullmatch(q, p) for p in x.params) for q in b.split(', '))
part('5', 'd', 'the bundles that count, by name', ['%d functions: %s' % (len(v), b.replace('\\w+', '..').replace('.*', '..').replace('.u8.', '[u8]').replace('i(?:ndex)?', 'i or index')) for b in BUNDLES for v in [[x for x in FNS if '/promises_' not in x.file and 'friscurella_c' not in x.file and any(has(x, q) for q in b.split('|'))]] if len(v) > 2])

# ---- point 6
part('6', 'a', 'a slice and a place or length beside it: parameters', [x.at + ' | ' + ', '.join(x.params) for x in FNS if any(re.match(r'\w+: &(mut )?\[(u8|u32|i32)\]', p) for p in x.params) and any(re.match(r'(at|end|from|to|size|count): (usize|u32)$', p) or (re.match('i: usize', p) and re.search('writer/src/store|/reader/src|obu/src', x.file)) for p in x.params) and '/promises_' not in x.file])
part('6', 'b', 'a length or place beside a buffer: fields', [p for p in grep(r'^    (pub )?(at|end|from|to|size|count|place): (usize|u32),') if TEXT[p.split(':')[0]][next(k for k in range(int(p.split(':')[1].split()[0]) - 1, -1, -1) if not TEXT[p.split(':')[0]][k].startswith('    '))].rstrip().endswith('{') and 'struct' in TEXT[p.split(':')[0]][next(k for k in range(int(p.split(':')[1].split()[0]) - 1, -1, -1) if not TEXT[p.split(':')[0]][k].startswith('    '))]])
part('6', 'c', 'a length compared with its buffer by hand', grep(r'(\w+\.len\(\) < |<= \w+\.len\(\)|< \w+\.len\(\))', not_='while'))
part('6', 'd', 'parallel arrays', grep(r'^const (F|SU|FEATURE)_\w+: \[') + grep(r'^    pub (cdef|feature)_\w+: \['))
part('6', 'e', 'lists searched by hand', named('behind|comma|nth_word|among|has_index', 'words') + named('named|part_reader', 'cases') + named('past_spaces|word_end|next_word', 'lines'))

# ---- point 7
part('7', 'a', 'match on a number or word that picks the step', grep(r'\bmatch (word|number|w|i % 8|bits|cdef_bits)\b'))
def chooser(x):
    b = ' '.join(t.strip() for t in x.body if t.strip())
    return re.fullmatch(r'if [^{};]* \{ return [\w:]+\([^;]*\); \}( if [^{};]* \{ return [\w:]+\([^;]*\); \})* [\w:]+\([^;]*\)', b) or re.fullmatch(r'if [^{};]* \{ [\w:]+\([^;{}]*\) \} else \{ [\w:]+\([^;{}]*\) \}', b)
part('7', 'b', 'functions that do nothing but pick one of two or three steps', [x.at for x in FNS if chooser(x)])
part('7', 'c', 'tables of functions', grep(r'\[fn\(|\bfn\(.*\) ->.*\[|&dyn|Box<'))

# ---- point 8
for kind in ('Proof', 'Answers', 'Invariants'):
    per = collections.OrderedDict()
    for f in sorted(glob.glob('crates/*/proofs/**/%s.antt' % kind, recursive=True)):
        c = f.split('/')[1]; n = sum(1 for _ in open(f)); a = per.setdefault(c, [0, 0]); a[0] += 1; a[1] += n
    part('8', kind, '%s.antt: %d files, %d lines' % (kind, sum(a[0] for a in per.values()), sum(a[1] for a in per.values())), ['%s: %d files, %d lines' % (c, a[0], a[1]) for c, a in per.items()])
own = [f for f in sorted(glob.glob('crates/*/proofs/*.antt')) if not f.endswith('/Lib.antt')]
part('8', 'own', 'files of helper lemmas: %d files, %d lines, %d statements' % (len(own), sum(sum(1 for _ in open(f)) for f in own), sum(len(re.findall(r'^(?:pub )?\S+ : ', open(f).read(), re.M)) for f in own)), ['%s: %d lines' % (f, sum(1 for _ in open(f))) for f in own])

if want:
    for k, t, v in P[want]:
        print('%s%s. %s: %d' % (want, k if len(k) == 1 else ' ' + k, t, len(v)))
        for p in v: print('   ' + p)
else:
    for n, ps in P.items():
        if n == '8': print('point 8: %d' % sum(len(glob.glob('crates/*/proofs/**/%s.antt' % k, recursive=True)) for k in ('Proof', 'Answers', 'Invariants')))
        else: print('point %s: %d' % (n, sum(len(v) for k, _, v in ps if k != 'c') if n == '5' else len({re.search(r'crates/\S+:\d+', p).group(0) for _, _, v in ps for p in v})))
        for k, t, v in ps: print('   %s%s %s: %d' % (n, k if len(k) == 1 else ' ' + k, t, len(v)))
PY
