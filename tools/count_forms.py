#!/usr/bin/env python3
"""Counts, at the top of the repository, the places in crates/*/src that older forms of the language left behind.

    python3 tools/count_forms.py        a number for each point
    python3 tools/count_forms.py -l     and each place, as `file:line name`

A point is a pattern over the code, less what reading shows to be no place (DROP), and what reading adds (ADD).
An entry of either is a name with a pattern: it counts only while the item stands and its text has the pattern.
"""
import glob, os, re, sys
from collections import OrderedDict, defaultdict


# ---- reading the code

def blank(text, keep_strings):
    """The text with comments (and string and byte literals) as blanks of the same length."""
    out, i, n = [], 0, len(text)
    while i < n:
        m = re.compile(r'//[^\n]*').match(text, i)
        if m:
            out.append(' ' * len(m.group()))
            i = m.end()
            continue
        m = re.compile(r"b?'(?:\\.|[^'\\\n])'").match(text, i) or re.compile(r'b?"(?:\\.|[^"\\])*"').match(text, i)
        if m:
            out.append(m.group() if keep_strings else '_' * len(m.group()))
            i = m.end()
            continue
        out.append(text[i])
        i += 1
    return ''.join(out)


def match(s, i, a, b):
    """The place behind the bracket that closes the one at i."""
    depth = 0
    while i < len(s):
        if s[i] == a:
            depth += 1
        elif s[i] == b and not (b == '>' and s[i - 1] in '-='):
            depth -= 1
            if depth == 0:
                return i + 1
        i += 1
    raise ValueError('no end')


def split(s, sep):
    """s at each sep that stands in no bracket."""
    out, depth, cur, i = [], 0, '', 0
    while i < len(s):
        c = s[i]
        if c in '([{<' and not (c == '<' and s[i:i + 2] in ('< ', '<=')):
            depth += 1
        elif c in ')]}>' and not (c == '>' and (s[i - 1] in '-= ')):
            depth -= 1
        if depth == 0 and s.startswith(sep, i):
            out.append(cur)
            cur = ''
            i += len(sep)
            continue
        cur += c
        i += 1
    return [x.strip() for x in out + [cur] if x.strip()]


def split_facts(s):
    out, depth, cur = [], 0, ''
    for c in s:
        if c in '([{':
            depth += 1
        elif c in ')]}':
            depth -= 1
        if c == '×' and depth == 0:
            out.append(cur)
            cur = ''
        else:
            cur += c
    out.append(cur)
    res = []
    for x in out:
        x = ' '.join(x.split())
        while x.startswith('(') and match(x, 0, '(', ')') == len(x):
            x = x[1:-1].strip()
        if '×' in x and not x.startswith('(') and '→' not in x and 'λ' not in x:
            res += split_facts(x) if x != ' '.join(s.split()) else [x]
        elif x:
            res.append(x)
    return res


class Item:
    pass


def items_of(path):
    raw = open(path, encoding='utf-8').read()
    code = blank(raw, True)
    mask = blank(raw, False)
    parts = path.split('/')
    where = parts[1] + '/' + '/'.join(parts[3:])[:-3]
    res = []
    impls = [(m.start(), match(mask, m.end() - 1, '{', '}'), m.group(1))
             for m in re.finditer(r'^\s*impl\b[^{;]*?(\w+)(?:<(?:[^{;<>]|<[^{;<>]*>)*>)?\s*(?:where[^{;]*)?\{', mask, re.M)]

    def new(kind, name, at, end):
        x = Item()
        x.kind, x.path, x.where, x.crate = kind, path, where, parts[1]
        owner = [o for a, b, o in impls if a < at < b]
        x.name = (owner[0] + '::' if owner else '') + name
        x.short = name
        x.line = raw.count('\n', 0, at) + 1
        x.text = code[at:end]
        x.key = where + ' ' + x.name
        # the comment above it
        above, doc = raw[:at].split('\n')[:-1], []
        while above and (above[-1].strip().startswith('//') or above[-1].strip().startswith('#[')):
            if above[-1].strip().startswith('//'):
                doc.insert(0, above[-1].strip()[2:].strip())
            above.pop()
        x.doc = ' '.join(doc)
        res.append(x)
        return x

    for m in re.finditer(r'(?<![\w.])(?:pub\s+)?(?:extern\s+\S+\s+)?\bfn\s+(\w+)', mask):
        i = m.end()
        if mask[i] == '<':
            i = match(mask, i, '<', '>')
        j = match(mask, i, '(', ')')
        params = code[i + 1:j - 1]
        k = j
        clauses = []
        ret = ''
        m2 = re.compile(r'\s*->\s*').match(mask, k)
        if m2:
            k = m2.end()
            e = re.compile(r'\s+(?=requires\b|ensures\b|decreases\b|where\b|\{)|(?=;(?![^\[\n]*\]))').search(mask, k)
            ret = ' '.join(code[k:e.start()].split())
            k = e.end()
        while True:
            m2 = re.compile(r'\s*(requires|ensures|decreases)\s*(\w*)\s*(?=\{)').match(mask, k)
            if not m2:
                break
            e = match(mask, m2.end(), '{', '}')
            clauses.append((m2.group(1), m2.group(2), ' '.join(code[m2.end() + 1:e - 1].split())))
            k = e
        b = re.compile(r'[{;]').search(mask, k).start()
        e = match(mask, b, '{', '}') if mask[b] == '{' else b + 1
        x = new('fn', m.group(1), m.start(), e)
        x.params = []
        for p in split(params, ','):
            if ':' in p:
                n, t = p.split(':', 1)
                x.params.append((n.replace('mut ', '').strip(), ' '.join(t.split())))
        x.ret = ret
        x.clauses = clauses
        x.requires = [f for a, _, t in clauses if a == 'requires' for f in split_facts(t)]
        x.ensures = [f for a, _, t in clauses if a == 'ensures' for f in split_facts(t)]
        x.body = code[b:e]
        x.body_at = b
        x.body_line = raw.count('\n', 0, b) + 1
    for m in re.finditer(r'(?:pub\s+)?\b(struct|enum)\s+(\w+)(?:<[^>]*>)?\s*\{', mask):
        e = match(mask, m.end() - 1, '{', '}')
        x = new(m.group(1), m.group(2), m.start(), e)
        body = code[m.end():e - 1]
        x.fields, x.variants = [], []
        for p in split(body, ','):
            p = re.sub(r'#\[[^\]]*\]\s*', '', ' '.join(p.split()))   # without attributes
            if m.group(1) == 'struct':
                if ':' in p:
                    n, t = p.split(':', 1)
                    x.fields.append((n.replace('pub ', '').strip(), t.strip()))
            else:
                v = re.match(r'(\w+)\s*(?:[({](.*)[)}])?', p)
                if v:
                    x.variants.append((v.group(1), v.group(2) or ''))
    for m in re.finditer(r'(?:pub\s+)?\bstruct\s+(\w+)(?:<[^>]*>)?\s*\(', mask):
        e = match(mask, m.end() - 1, '(', ')')
        x = new('struct', m.group(1), m.start(), e)
        x.fields, x.variants = [(str(i), t.replace('pub ', '').strip()) for i, t in enumerate(split(code[m.end():e - 1], ','))], []
    for m in re.finditer(r'(?:pub\s+)?\bconst\s+(\w+)\s*:\s*(\w+)\s*=\s*([^;]*);', mask):
        x = new('const', m.group(1), m.start(), m.end())
        x.type = m.group(2)
    return res


FILES = sorted(p for p in glob.glob('crates/*/src/**/*.r[ts]', recursive=True))
ITEMS = [x for p in FILES for x in items_of(p)]
FNS = [x for x in ITEMS if x.kind == 'fn']
STRUCTS = [x for x in ITEMS if x.kind == 'struct']
ENUMS = [x for x in ITEMS if x.kind == 'enum']
CONSTS = [x for x in ITEMS if x.kind == 'const']
BY = defaultdict(list)
for x in ITEMS:
    BY[x.key].append(x)
INT = r'(?:u8|u32|u64|usize|i32|i64|isize)'

POINTS = OrderedDict()   # name of the point -> list of (item, remark)
NOTES = {}               # name of the point -> (dropped, added)
GONE = []                # what is named here and stands no more: it was rewritten, or moved and is to be named anew


def stands(key, pattern):
    return [x for x in BY.get(key, []) if re.search(pattern, x.text)]


def point(name, found, drop=(), add=(), each=False):
    """found: (item, remark); drop and add: ('crate/file name', pattern, remark). Without `each` an item is one place."""
    dropped = [(x, r) for key, p, r in drop for x in stands(key, p)]
    gone = {id(x) for x, _ in dropped}
    res = [(x, r) for x, r in found if id(x) not in gone]
    have = {(id(x), r) if each else id(x) for x, r in res}
    added = [(x, r) for key, p, r in add for x in stands(key, p) if ((id(x), r) if each else id(x)) not in have]
    GONE.extend('%s: %s' % (name.split()[0], key) for key, p, r in list(drop) + list(add) if not stands(key, p))
    POINTS[name] = sorted(res + added, key=lambda t: (t[0].path, t[0].line, t[1]))
    NOTES[name] = ([t for t in dropped if id(t[0]) in {id(x) for x, _ in found}], added)


# ---- 1. errors, absence and kinds

REFUSALS = {v for x in ENUMS if x.name == 'Refusal' for v, _ in x.variants}


def shape(x):
    units = [v for v, p in x.variants if not p]
    loads = [v for v, p in x.variants if p]
    refused = [v for v, p in x.variants if re.search(r'\bRefusal\b', p)]
    if refused:
        if len(x.variants) == 2:
            return 'Result'
        return 'Result, more ways'
    if len(units) == 1 and len(loads) == 1:
        return 'Option'
    if len(units) == 1 and len(loads) > 1:
        return 'Option, more ways'
    if not loads and x.name != 'Refusal' and any(v in REFUSALS for v in units):
        return 'Result, more ways'
    return None


point('1a own enum of the shape of Option or Result', [(x, shape(x)) for x in ENUMS if shape(x)])

UNIT_ENUMS = {(x.crate, x.name) for x in ENUMS if all(not p for _, p in x.variants)}


def flag_field(x):
    f = [n for n, t in x.fields if t == 'bool' or (x.crate, t) in UNIT_ENUMS]
    return f[0] if f and len(f) < len(x.fields) else None


point('1b struct with a flag and a value beside it', [(x, 'flag `%s`' % flag_field(x)) for x in STRUCTS if flag_field(x)],
      drop=[('tops/lib PassedSide', r'armed: bool', 'both are carried, neither says whether the other counts')])

point('1c bool that stands for an error: what does work and returns a bool',
      [(x, '') for x in FNS if x.ret == 'bool' and any(t.startswith('&mut') for _, t in x.params)])
point('1c2 bool that stands for an error: a parameter or a local',
    [(x, '`%s`' % n) for x in FNS for n, t in x.params if n == 'over' and t == 'bool'], each=True,
      add=[('question/answered of_tree', r'let over = ', 'local `over`'), ('runset_c/lib runset_combine', r'let over = ', 'local `over`'),
           ('slot/run nearer', r'any: bool', '`any`: whether there is a distance yet'),
            ('runset/lib RunSet::distance', r'let mut any = false', 'local `any`')])

GUARD = re.compile(r'\bif !?(?:\w+::)*(\w+)\([^{};]*\) \{\s*(?:[^{};]*;\s*)?return [^;{}]*(?:Refused\(|Nothing\b)')
GUARDS = defaultdict(set)
for x in FNS:
    for m in GUARD.finditer(x.body):
        GUARDS[m.group(1)].add(x.key)
point('1c3 test whose answer is a refusal',
      [(x, '') for x in FNS if x.ret == 'bool' and x.short in GUARDS and not any(t.startswith('&mut') for _, t in x.params)],
      add=[('lab/barred is_barred', 'bool', 'for 14, by some_barred'), ('marks/lib some_late', 'bool', 'for 11, by are_bad'),
           ('live_state/lib marks_bad', 'bool', 'for 11, by is_none'), ('sheet/lib some_foreign', 'bool', 'for 13, by is_bad'),
           ('question/limits many_tops', 'bool', 'for 9, by asks'), ('question/limits leaf_asks', 'bool', 'for 9, by asks'),
           ('report/lib is_faulty', 'bool', 'for 15, by is_unsound'), ('report/lib is_absent', 'bool', 'for 15, by is_none'),
           ('report_state/lib is_none', 'bool', 'for 15, by end'),
            ('recording/lib record_fits', 'bool', 'for 3, by first_bad; true is good'),
           ('recording/lib tail_fits', 'bool', 'for 3; true is good'), ('recording/lib tail_fits_after', 'bool', 'for 3; true is good'),
           ('recording/lib in_range', 'bool', 'for 3; true is good')])

# constants that number kinds or refusals: runs of constants of one file with the values 0, 1, 2 and on, of type u8 or u32; and by reading
GROUPS = OrderedDict()
for p in FILES:
    run, last = [], None
    for x in [c for c in CONSTS if c.path == p] + [None]:
        v = re.search(r'=\s*(\d+)\s*;', x.text) if x else None
        v = int(v.group(1)) if v and x.type in ('u8', 'u32') else None
        if run and (v is None or v != last + 1):
            if len(run) > 2:
                GROUPS[run[0].key] = run
            run = []
        if v is not None and (run or v == 0):
            run.append(x)
        last = v
point('1d group of constants that number kinds or refusals',
    [(g[0], '%d constants, %s to %s' % (len(g), g[0].name, g[-1].name)) for g in GROUPS.values()],
      add=[('live/lib OUT_OF_RULES', r'=\s*3', '1 constant, the number of a refusal')])
point('1d2 codes without constants, as bare numbers', [], add=[
    ('assured/leaf is_curve', r'field < 2', 'field'), ('assured/leaf is_side', r'is_one_of\(relation', 'relation'),
    ('assured/leaf stays_later', r'is_one_of\(relation', 'relation'), ('assured/leaf was_earlier', r'is_one_of\(relation', 'relation'),
    ('assured/leaf is_eq', r'3 < relation', 'relation'), ('assured/leaf is_gt', r'relation == 2', 'relation'),
    ('lab/barred names_b', r'first == 1', 'field and curve'), ('lab/lib lab_pair', r'curve == 1', 'curve'),
    ('leaves/atoms relates', r'relation == 0', 'relation'), ('leaves/atoms related', r'relation == 0', 'relation'),
    ('leaves/atoms a_to_b', r'value_at\(rec, i, 0\)', 'curve'), ('leaves/fields field_at', r'code == 0', 'field'),
    ('leaves/times lag', r'top_indices\(rec, 0', 'curve'), ('lexer/lib other_curve', r'field == 0', 'field'),
    ('listing/lib in_entries', r'1 < curve', 'curve'), ('pair/lib in_accepted', r'1 < curve', 'curve'),
    ('question/limits leaf_asks', r'many_tops\(rec, 0\)', 'curve'), ('recording/lib curve', r'code == 0', 'curve'),
    ('entry/lib put_entry', r'extent_of\(rec, n, 0\)', 'curve'), ('runset_c/lib combine', r'op == 0', 'operation'),
    ('words/lib curve_letter', r'At\(0, ', 'curve'), ('words/lib relation', r'At\(0, ', 'relation'),
     ('words/lib time', r'At\(2, ', 'field')])

CODE = {'kind': 'kind', 'curve': 'curve', 'relation': 'relation', 'field': 'field', 'slope': 'slope', 'op': 'operation', 'code': 'code',
    'wanted': 'slope'}
found = []
for x in FNS:
    for n, t in x.params:
        if n in CODE and re.fullmatch(r'u8|u32|usize', t):
            found.append((x, 'parameter %s: %s' % (n, t)))
for x in STRUCTS:
    for n, t in x.fields:
        if n in CODE and re.fullmatch(r'u8|u32|usize', t):
            found.append((x, 'field %s: %s' % (n, t)))
found = [(x, r) for x, r in found if not (x.key == 'text/brackets one_if')]      # there `wanted` is a byte of the text
point('1e field or parameter that carries the number of a kind', found, each=True, add=[
    ('assured/leaf is_one_of', r'a: u32', 'parameter a: u32'), ('assured/leaf is_one_of', r'b: u32', 'parameter b: u32'),
    ('flagging/lib Slopes', r'a: u8', 'field a: u8'), ('flagging/lib Slopes', r'b: u8', 'field b: u8'),
    ('flagging/lib steep_or', r'nearest: u8', 'parameter nearest: u8'),
    ('grammar/lib Found', r'At\(u32', 'first of At: u32'), ('grammar/lib Leaf', r'Open\(u32', 'first of Open: u32'),
    ('grammar/lib Row', r'first: u32', 'field first: u32'), ('grammar/lib Row', r'second: u32', 'field second: u32'),
    ('lab/barred names_b', r'first: u32', 'parameter first: u32'),
    ('text/table between', r'k: u32', 'parameter k: u32'), ('text/table between', r'low: u32', 'parameter low: u32'),
     ('text/table between', r'high: u32', 'parameter high: u32'),
    ('text/table some_kind', r'low: u32', 'parameter low: u32'), ('text/table some_kind', r'high: u32', 'parameter high: u32'),
    ('tops/lib Event', r'Top\(usize', 'of Top: usize'), ('tops/lib Event', r'Dip\(usize', 'of Dip: usize')] +
    [('tops/lib ' + f, n + r': u8', 'parameter %s: u8' % n) for f in ('pass_record', 'turn_times', 'turn_count') for n in ('from', 'to')])
point('1e2 result that is the number of a kind or refusal', [], add=[
    ('flagging/lib steep_or', r'-> u8', 'slope'), ('leaves/fields slope_at', r'-> u8', 'slope'), ('text/table kind', r'-> u32', 'kind'),
    ('recording/lib curve', r'-> usize', 'curve'), ('refusal/lib number', r'-> u32', 'refusal'),
     ('refusal/lib place', r'-> usize', 'place of a refusal, 0 for none')])
point('1f -1 for failure', [(x, 'literal') for x in FNS if re.search(r'(?<![\w)\]] )(?<![\w)\]])-1\b', x.body) and not re.search(r'- 1\b',
    x.body)],
      add=[('ask/input take_read', r'got: isize', 'parameter got: isize')])
point('1g number that stands for none or for a failure', [], add=[
    ('differences/lib Swept', r'next: u32', 'next: AXIS for none'), ('differences/lib SweptRow', r'next: u32', 'next: AXIS for none'),
    ('differences/lib Added', r'next: u32', 'next: AXIS for none'),
    ('differences/lib beyond', r'number::AXIS', 'AXIS for none'), ('differences/lib least', r'number::AXIS', 'AXIS for none'),
     ('differences/lib begin', r'least\(', 'AXIS for none'),
    ('flagging/lib first_after', r'-> usize', 'n for none'), ('flagging/lib no_slopes', r'FLAT', 'FLAT for none'),
     ('flagging/lib steep_or', r'nearest', 'FLAT for none'),
    ('leaves/extremes none', r'number::AXIS', '0 or AXIS for none'), ('leaves/extremes extreme', r'none\(up\)', '0 or AXIS for none'),
    ('leaves/span Span', r'high: u32', 'high < low for none'), ('leaves/span below', r'low: 1', '1 and 0 for none'),
    ('band/ends lowafter', r'today\.high < today\.low', 'high < low for none'), ('band/ends capafter', r'today\.low == 0', '0 for none'),
    ('lexer/numbers LARGER', r'LARGEST \+ 1', 'for any larger number'), ('lexer/numbers Digits', r'value: u64', 'LARGER for too large'),
    ('live_state/lib NO_RUN', r'4_294_967_295', 'for no run'),
    ('merge/run put', r'end <= low', 'end <= low for none'), ('recording/lib first_bad', r'-> usize', 'n for none'),
    ('runset_c/lib index_at', r'number::AXIS', 'AXIS for off the axis'), ('sheet/lib first_additions', r'\[n; PLACES\]', 'n for never'),
    ('sheet/lib Break', r'index: usize', 'index: n for none'), ('sheet/lib first_break', r'let mut index = n', 'n for none'),
    ('tops/lib note', r'count', 'a count over the room for too many'), ('tops/lib is_added', r'k != 0', '0 for no pigment'),
     ('words/lib peek', r'else \{ 0 \}', '0 past the end'),
    ('page/intake take_in', r'return limit', 'a count over the limit for too long')])
point('1h number that a call returns for a refusal or a case (C boundary)',
      [(x, '') for x in FNS if x.ret in ('u32', 'u64')
          and (re.search(r'reply::(?:refused|written)\(', x.body) or re.search(r'\breturn 4_294_96729|4_294_967_29|tell\w*\(', x.body))],
      add=[('reply/lib refused', r'HALF', ''), ('reply/lib written', r'refused\(x\)', ''), ('boundary/lib put_ends', r'-> u64', ''),
          ('report_state/lib give', r'return 2', ''),
           ('mill/lib mill_report_start', r'report_state::', ''), ('mill/lib mill_report_add', r'report_state::', ''),
           ('runset_c/lib runset_has', r'return 2', ''), ('runset_c/lib runset_repeat', r'return 0', ''),
            ('runset_c/lib repeated', r'return 0', '')])

# ---- 2. twins: found by reading; a member counts while it stands, a group while two of its members stand

TWINS = OrderedDict([
    ('types: a value or Refused(Refusal)',
     'assured/lib Verdict; band/lib InBand; live/lib Stepped; question/answered Verdict; question/prepare Prepared; '
     'recording/lib Written; recording/lib Checked; report/lib Named; text/lib Answer'),
    ('types: a value or nothing', 'band/lib Part; grammar/lib Found; parser/lib Got; runs/lib Nearest; targets/lib OnAxis'),
    ('types: an answer, nothing, or Refused(Refusal)', 'degree/lib Reached; pair/lib TopPair; sheet/lib Ordered'),
    ('types: a count and whether it is over', 'join/lib Joined; merge/walk Filled'),
    ('types: what a sweep found', 'differences/lib Swept; differences/lib SweptRow'),
    ('types: what a pass carries', 'tops/lib Passed; tops/lib PassedSide'),
    ('types: a run by its ends', 'leaves/span Span; merge/run Run; band/lib Part; join/lib Head'),
    ('constants: 2,000,000,000',
     'number/lib ORIGIN; recording/lib LATEST; marks/lib LATEST_MARK; lexer/numbers LARGEST; targets/lib HIGHEST'),
    ('constants: 4,000,000,000', 'runset/lib RunSet::HIGH; report/lib LONGEST'),
    ('constants: the greatest number of a pigment', 'recording/lib MOST_PIGMENTS; lexer/numbers MOST_PIGMENTS'),
    ('constants: 4,294,967,296', 'reply/lib HALF; report_state/lib RANGE'),
    ('constants: the greatest number of 32 bits', 'flagging/lib GREATEST_KEY; live_state/lib NO_RUN'),
    ('constants: from an index to offset binary', 'listing/lib LIFT; runset_c/lib SHIFT'),
    ('constants: the format of a state', 'live_state/lib FORMAT; report_state/lib FORMAT'),
    ('a number in another type',
     'number/lib wide; pair/lib wide; sheet/lib wide; slot/lib size; evaluation/slots size; binary64/lib distance_of'),
    ('1 where two are the same, else 0', 'merge/complement one_if; text/brackets one_if; report/lib one_met'),
    ('the lesser and the greater', 'number/lib lesser; number/lib greater; leaves/extremes farther; slot/run nearer'),
    ('the two words of 64 bits', 'report_state/lib low_word; report_state/lib high_word'),
    ('copies elements from a place on',
     'copying/lib copy_bytes; slot/lib copy; page/put bytes; evaluation/rows copy; report_state/lib put_text; recording/lib put16'),
    ('copies blocks of 16, from one slice or within it', 'copying/lib copy_blocks; copying/lib copy_within'),
    ('writes a row of words', 'copying/lib put_words; report_state/lib put_words'),
    ('the differences, by three constants of one call', 'differences/lib lags; differences/lib gaps; differences/lib steps'),
    ('a sweep over rows', 'differences/lib sweep; differences/lib sweep_steps'),
    ('sets of differences between tops', 'leaves/times gaps; leaves/times steps; leaves/times lag'),
    ('times as indices', 'leaves/times event_indices; leaves/times addition_indices; leaves/times top_indices'),
    ('the set of times', 'leaves/times events; leaves/times additions'),
    ('sets of extremes, by a direction and an after-time',
     'leaves/extremes high; leaves/extremes low; leaves/extremes lowafter; leaves/extremes capafter'),
    ('bands of extremes', 'band/ends high; band/ends low; band/ends lowafter; band/ends capafter; band/ends ampl'),
    ('up to and from a number', 'leaves/span from; leaves/span upto; band/ends upto; band/ends from'),
    ('a relation, asked and as a span', 'leaves/atoms relates; leaves/atoms related'),
    ('whether the relation is one of two', 'assured/leaf is_side; assured/leaf stays_later; assured/leaf was_earlier'),
    ('`|` and `&` of traits', 'assured/operators or; assured/operators and'),
    ('operators in time of traits',
     'assured/operators finally; assured/operators globally; assured/operators next; assured/operators until'),
    ('texts joined by `|` and by `&`', 'parser/lib or_text; parser/lib and_text'),
    ('the rest of texts joined by `|` and by `&`', 'parser/lib or_more; parser/lib and_more'),
    ('behind an opening', 'parser/lib unary; parser/lib binary'),
    ('rows of operators', 'parser/table put_unary; parser/table put_binary'),
    ('a word of a list, as its code',
     'words/lib curve_letter; words/lib relation; words/lib time; words/lib level_name; words/lib top_name; words/lib difference_name; '
     'words/lib pigment_name; words/lib opening'),
    ('one list of words, else the next',
     'words/lib field; words/lib pigment_or_opening; words/lib difference_or_opening; words/lib name_or_opening; words/lib begun'),
    ('whether the kind is one of a few',
     'lexer/lib is_timed; lexer/lib takes_pigment; lexer/lib is_bare; lab/barred names_both; lab/barred has_curve; lab/barred is_temporal'),
    ('times of the records that are sought',
     'tops/lib turn_times; tops/lib turn_count; tops/lib crossing_times; tops/lib addition_times'),
    ('whether some element has it',
     'marks/lib some_late; marks/lib has; sheet/lib some_foreign; text/table some_kind; lab/barred some_barred'),
    ('counts entries, or writes their numbers', 'listing/lib count_entries; listing/lib put_numbers'),
    ('one entry more, counted or written', 'listing/lib count_one; listing/lib put_number'),
    ('the set of one leaf, of any other text', 'question/answered of_leaf; question/answered of_tree'),
    ('answers one leaf, any other text, or tells how near it comes',
     'question/call answer_leaf; question/call answer_tree; degree/lib near_leaf; degree/lib near_tree'),
    ('a leaf or one of two operators, over the tree', 'assured/lib traits_at; question/limits asks; evaluation/lib child'),
    ('call: table, prepare, answer',
     'question/call question; degree/lib degree; degree/lib distance_at; band/lib band; lab/lib lab_question; lab/lib lab_degree'),
    ('call: check, then the records',
     'pair/lib pair; sheet/lib order; entry/lib entry; thin/lib thin; lab/lib pair_of_b; question/prepare prepare'),
    ('no record, a bad argument, then the answer',
     'pair/lib in_accepted; sheet/lib in_accepted; listing/lib in_entries; report/lib aimed; band/lib within; degree/lib near_target'),
    ('an answer as a number',
     'assured/lib tell; live/lib tell; reply/lib written; boundary/lib tell_degree; boundary/lib tell_pair; boundary/lib tell_bands; '
     'boundary/lib tell_order; report_state/lib tell; text_c/lib text_read'),
    ('export: an answer as a number',
     'mill/lib mill_question; mill/lib mill_thin; mill/lib mill_lab_question; mill/lib mill_live_kept; mill/lib mill_live_entry; '
     'mill/lib mill_entry; mill/lib mill_find; mill/lib mill_live_start; mill/lib mill_live_add; mill/lib mill_live_save; '
     'mill/lib mill_live_restore; mill/lib mill_assured'),
    ('export: an answer as a number and in places',
     'mill/lib mill_degree; mill/lib mill_lab_degree; mill/lib mill_pair; mill/lib mill_lab_pair; mill/lib mill_band; mill/lib mill_order'),
    ('export: loads sets and answers', 'runset_c/lib runset_combine; runset_c/lib runset_repeat; runset_c/lib runset_stores'),
    ('export: loads a set and asks it of a number', 'runset_c/lib runset_has; runset_c/lib runset_distance'),
    ('the low and the high end of a run', 'runset/lib RunSet::low; runset/lib RunSet::high'),
    ('a state is ended', 'live_state/lib end; report_state/lib end'),
    ('no state stands in the bytes', 'live_state/lib is_none; report_state/lib is_stateless'),
    ('a state starts', 'live_state/lib start; report_state/lib begin'),
    ('the heads of a state', 'live_state/lib SIGNATURE; report_state/lib SIGNATURE'),
    ('one state of three', 'ask/input is_whole; ask/input goes_on'),
    ('a recording with the batch at a distance, or empty', 'report/lib with_distance; report/lib with_empty'),
    ('whether a slope of A or B changes at a record', 'flagging/lib ends; flagging/lib turns'),
    ('whether the relation is one', 'assured/leaf is_eq; assured/leaf is_gt'),
    ('a field of a record', 'recording/lib word_in; recording/lib byte_in; recording/lib value_in'),
    ('a field of a record, as it is asked', 'leaves/fields time_at; leaves/fields value_at; leaves/fields slope_at'),
    ('one leaf, or any other text', 'question/call answer; degree/lib near_text'),
    ('the slot of a node',
     'evaluation/slots set_in; evaluation/slots put; evaluation/node leaf_at; evaluation/node one_at; evaluation/node two_at'),
    ('a call on a run: whether there is one',
     'live/lib add; live/lib save; live/lib restore; live/lib kept; live_entry/lib entry_of_run'),
])
STRICT = {'types: a value or Refused(Refusal)', 'types: a value or nothing', 'types: an answer, nothing, or Refused(Refusal)',
    'types: a count and whether it is over',
          'types: what a pass carries', 'constants: 2,000,000,000', 'constants: 4,000,000,000',
          'constants: the greatest number of a pigment', 'constants: 4,294,967,296', 'constants: the greatest number of 32 bits',
          'constants: from an index to offset binary', 'constants: the format of a state', 'the heads of a state',
          'a number in another type',
          '1 where two are the same, else 0', 'copies elements from a place on', 'writes a row of words',
          'the differences, by three constants of one call',
          'sets of extremes, by a direction and an after-time', 'whether the relation is one of two', 'whether the relation is one',
          'a word of a list, as its code',
          'whether the kind is one of a few', 'one state of three'}
# one function that has its twin inside
INNER = [('thin/lib write_kept', r'\[false; FEW\][\s\S]*\[false; recording::MOST_RECORDS\]', 'the same with short and with long rows'),
         ('evaluation/lib walk', r'if flip[\s\S]*else', 'the same with `a` and `b` exchanged'),
         ('flagging/lib slopes_with', r'a: steep_or[\s\S]*b: steep_or', 'A and B'),
          ('flagging/lib turns', r'turns_a[\s\S]*turns_b', 'A and B'),
         ('flagging/lib extremes_of', r'high_a[\s\S]*high_b', 'A and B, high and low'),
          ('flagging/lib extremes_with', r'high_a[\s\S]*high_b', 'A and B, high and low'),
         ('flagging/lib set_extremes', r'high_a[\s\S]*high_b', 'A and B, high and low'),
          ('entry/lib put_entry', r'extent_of\(rec, n, 0\)[\s\S]*extent_of\(rec, n, 1\)', 'A and B'),
         ('leaves/times lag', r'top_indices\(rec, 0[\s\S]*top_indices\(rec, 1', 'A and B'),
          ('runset_c/lib runset_combine', r'load\(a[\s\S]*load\(b[\s\S]*load\(c', 'three sets'),
         ('runset_c/lib runset_repeat', r'load\(a[\s\S]*load\(b[\s\S]*load\(c', 'three sets'),
          ('runset_c/lib runset_stores', r'load\(a[\s\S]*load\(b', 'two sets')]
GROUPED = OrderedDict()
GONE.extend('%s: %s' % (n, m) for n, ms in [('2', v) for v in TWINS.values()] for m in ms.split('; ') if m not in BY)
for g, members in TWINS.items():
    got = [x for m in members.split('; ') for x in BY.get(m, [])[:1]]
    if len(got) > 1:
        GROUPED[g] = got
POINTS['2 twins that differ in a type, a size or a constant: groups'] = [(got[0], g) for g, got in GROUPED.items() if g in STRICT]
POINTS['2 twins that differ in what they call: groups'] = [(got[0], g) for g, got in GROUPED.items() if g not in STRICT]
POINTS['2 members of all groups'] = [(x, g) for g, got in GROUPED.items() for x in got]
point('2b twin inside one function', [], add=INNER)
# functions whose bodies are the same but for names and literals: a check that no such group is left out above
SAME = defaultdict(list)
for x in FNS:
    names, words = {}, []
    for t in re.findall(r"b?'(?:\\.|[^'])'|b?\"[^\"]*\"|\w+(?:::\w+)*|\S", x.body):
        if re.match(r"b?['\"]|\d", t):
            words.append('0')
        elif re.match(r'\w', t) and t not in ('let', 'mut', 'if', 'else', 'while', 'for', 'in', 'return', 'match', 'true', 'false',
            'break', 'as'):
            words.append('n%d' % names.setdefault(t, len(names)))
        else:
            words.append(t)
    if len(words) > 8:
        SAME[' '.join(words)].append(x)
SAME = [l for l in SAME.values() if len(l) > 1]
POINTS['2c bodies equal but for names and literals: members'] = [(x,
    'with ' + ', '.join(y.where + ' ' + y.name for y in l if y is not x)) for l in SAME for x in l]

# ---- 3. loops


def loops(x):
    for m in re.finditer(r"(?:'(\w+): )?\bwhile ([^{]*)\{", x.body):
        line = x.body_line + x.body.count('\n', 0, m.start())
        cond = ' '.join(m.group(2).split())
        inner = x.body[m.end() - 1:match(blank(x.body, False), m.end() - 1, '{', '}')]
        steps = re.findall(r'\b(\w+) ([+-])= (\d+);', inner)
        steps = [s for s in steps if re.search(r'\b%s\b' % s[0], cond) or re.search(r'\[%s[ \]+]' % s[0], inner)]
        up = [s for s in steps if s[1] == '+']
        down = [s for s in steps if s[1] == '-']
        if not steps:
            how = 'no index by steps'
        elif len({s[0] for s in steps}) > 1:
            how = 'several indices'
        elif down:
            how = 'down by ' + down[0][2]
        else:
            how = 'up by ' + up[0][2]
        yield line, cond, how


LOOPS = []
for x in FNS:
    for line, cond, how in loops(x):
        y = Item()
        y.__dict__.update(x.__dict__)
        y.line = line
        LOOPS.append((y, '`while %s` %s' % (cond, how)))
POINTS['3 `while`'] = LOOPS
OTHER3 = {w: sum(len(re.findall(r'(?<![\w.])' + p, blank(x.body, False))) for x in FNS) for w,
    p in (('for', r'for [^;{]* in '), ('loop', r'loop \{'))}
NO_INDEX = [('ask/input read_all', 'turns are counted, no index'), ('differences/lib collect', 'the next number is found'),
    ('flagging/lib first_after', 'halving')]
POINTS['3 `while` that counts an index by hand'] = [(y, r) for y, r in LOOPS if y.key not in [k for k, _ in NO_INDEX]]
NOTES['3 `while` that counts an index by hand'] = ([(y, w) for y, _ in LOOPS for k, w in NO_INDEX if y.key == k], [])
KINDS3 = OrderedDict()
for y, r in LOOPS:
    KINDS3[r.split('` ')[1]] = KINDS3.get(r.split('` ')[1], 0) + 1

# ---- 4. by hand

HAND = OrderedDict([
    ('order', 'number/lib lesser; number/lib greater; slot/run nearer; leaves/extremes farther; flagging/lib best_with; '
              'lexer/numbers with_digit; recording/lib in_range; text/table between'),
    ('equality',
     'runset/lib differ; assured/leaf is_one_of; merge/complement one_if; text/brackets one_if; report/lib one_met; words/lib spelled; '
     'marks/lib has; report_state/lib is_nan; report/lib is_faulty'),
    ('a match that gives a bool',
     'ask/input is_whole; ask/input goes_on; grammar/classes is_digit; leaves/lib apart; report/lib is_unread'),
    ('a match that turns one answer into another',
     'refusal/lib number; refusal/lib place; degree/lib graded; degree/lib near_set; question/answered verdict_of; leaves/times made; '
     'question/prepare prepare; lab/lib prepare'),
    ('copying', 'copying/lib copy_bytes; copying/lib copy_blocks; copying/lib copy_within; slot/lib copy; runset/lib RunSet::copy; '
                'page/put bytes; evaluation/rows copy; report_state/lib put_text; recording/lib take16; recording/lib put16; '
                'thin/lib copy_one; thin/lib copy_flagged; live_state/lib copy_run; evaluation/slots put'),
    ('a struct built anew, field by field, to change a few',
     'report/lib with_distance; report/lib with_empty; join/lib join; assured/operators not; flagging/lib extremes_with; '
     'tops/lib pass_record; tops/lib pass_side'),
    ('conversion of a number',
     'number/lib wide; pair/lib wide; sheet/lib wide; slot/lib size; evaluation/slots size; number/lib low_byte; '
     'report_state/lib low_word; report_state/lib high_word; binary64/lib distance_of; binary64/lib bits; report_state/lib float_at; '
     'number/lib offset_binary; number/lib bits_at; targets/lib on_axis; recording/lib curve; entry/lib count_tops; '
     'runset_c/lib index_at; reply/lib refused'),
    ('numbers out of bytes and into them',
     'number/lib word_at; number/lib put_word; report_state/lib long_at; recording/lib word_in; recording/lib byte_in; '
     'recording/lib value_in; recording/lib tail_in; copying/lib put_words; report_state/lib put_words; report_state/lib words_of; '
     'slot/run put_bytes; evaluation/rows row_at; parser/table put; live_state/lib put_head; report_state/lib report_in; '
     'report_state/lib mean_in; report_state/lib text_in'),
    ('reading a number or a byte of a text',
     'lexer/numbers with_digit; lexer/numbers digit_run; lexer/numbers unsigned; grammar/classes class_of; grammar/classes is_digit; '
     'words/lib peek; page/call text_length'),
    ('printing',
     'page/numbers unsigned; page/numbers signed; page/lines run; page/lines runs; page/lines set_page; page/lines refusal_page; '
     'page/put byte; page/put bytes'),
])
GONE.extend('4: ' + m for ms in HAND.values() for m in ms.split('; ') if m not in BY)
for h, members in HAND.items():
    POINTS['4 by hand: ' + h] = [(x, '') for m in members.split('; ') for x in BY.get(m, [])[:1]]
POINTS['4 by hand, each function once'] = [(x, '') for x in FNS if x.key in {m for ms in HAND.values() for m in ms.split('; ')}]
CASTS = [(x, len(re.findall(r'\bas (?:u8|u32|u64|usize|i64|isize|f64)\b', getattr(x, 'body', x.text)))) for x in FNS + CONSTS]
CASTS = [(x, '%d cast%s' % (n, 's'[:n > 1])) for x, n in CASTS if n]
POINTS['4b function or constant with a cast by `as`'] = CASTS
NCASTS = sum(int(r.split()[0]) for _, r in CASTS)
CALLS4 = {n: len([1 for x in FNS for _ in re.finditer(r'(?<![\w.])(?:number::)?%s\(' % n, x.body)]) for n in ('lesser', 'greater')}

# ---- 5. facts and parameters


def normal(x, f):
    f = re.sub(r'\b(\w+)\.(?:now|old|new)\b', r'\1', f)
    return f


PARAM_CLASS = {'u8': '#', 'u32': '#', 'u64': '#', 'usize': '#', 'i64': '#', 'isize': '#', 'bool': '?'}


def fact(x, f):
    """The fact with each number parameter as #, each bool as ?, each slice as its name or, where it only lends room, as *."""
    types = dict(x.params)
    def sub(m):
        n = m.group(1)
        t = types.get(n)
        if n == 'result':
            return 'result' if not m.group(2) else '*'
        if t is None:
            return m.group(0)
        if t in PARAM_CLASS:
            return PARAM_CLASS[t]
        return n if n in ('rec', 'table', 'text', 'marks', 'live') else '*'
    g = re.sub(r'(?<![\w.«])(\w+)((?:\.(?:now|old|new))?)(?![\w(])', sub, f)
    g = re.sub(r'# \* (\d+)', r'\1 * #', g)
    return g


FACTS = defaultdict(list)
for x in FNS:
    seen = set()
    for f in x.requires:
        g = fact(x, f)
        if g not in seen:
            seen.add(g)
            FACTS[g].append((x, f))
ENS = defaultdict(list)
for x in FNS:
    seen = set()
    for f in x.ensures:
        if re.search(r'\bresult\b(?!\s*≡)', f) and len(f) > 60:
            continue
        g = fact(x, f)
        if g not in seen:
            seen.add(g)
            ENS[g].append((x, f))
COMMON = sorted([(g, l) for g, l in FACTS.items() if len({x.key for x, _ in l}) > 2],
    key=lambda t: (-len({x.key for x, _ in t[1]}), t[0]))
POINTS['5 facts in the contracts of three or more functions'] = [(l[0][0],
    '%s | %d contracts | %d files' % (g, len({x.key for x, _ in l}), len({x.path for x, _ in l}))) for g, l in COMMON]

TOGETHER = OrderedDict([
    ('rec, n: records and how many', [r'rec|s', 'n']), ('rec, i: records and one index', ['rec|s', 'i']),
     ('rec, i, row: a leaf at a record', ['rec', 'i', 'row']),
    ('rec, n, marks, count', ['rec', 'n', 'marks', 'count']), ('rec, n, curve', ['rec', 'n', 'curve']), ('rec, curve', ['rec', 'curve']),
    ('rec, table, count: an answerable text', ['rec', 'table', 'count']),
     ('table, count or n: rows and how many', ['table|rows', 'count|n']),
    ('table, marks', ['table', 'marks']), ('text, at: a place in a text', ['text', 'at']),
     ('text, table, at, n: the reader', ['text', 'table', 'at', 'n']),
    ('own, other, shared: tables of sets', ['own', 'other', 'shared']), ('own, n: a slot of a table', ['own|sets', 'n|m']),
     ('kind, last: a step', ['kind', 'last']),
    ('near, a, b: which differences', ['near', 'a', 'b']), ('a, b, set: two lists and the result', ['a', 'b', 'set']),
     ('s, b, start, x: a row of a sweep', ['s', 'b', 'x']),
    ('l, i: a list and the place reached', ['l', 'i']), ('set, at or n, stores: runs stored', ['set', 'at|n', 'stores']),
     ('low, end or high: a run', ['low', 'end|high']),
    ('times, count or n: times and how many', ['times', 'count|n']), ('out, at: output and place', ['out', 'at']),
     ('marks, count', ['marks', 'count']),
    ('begins, flags: two rows of flags', ['begins', 'flags']), ('here, flags', ['here', 'flags']),
     ('summary, n, curve, index or level', ['summary', 'n', 'curve']),
    ('met, empty, distances, mean: places of a report', ['met', 'empty', 'distances', 'mean']), ('curve, target', ['curve', 'target']),
    ('store, n: what is kept of an input', ['store', 'n']), ('failure, store', ['failure', 'store']),
     ('up, after or m: an extreme', ['up', 'm|after']),
    ('count, text, target: a naming', ['count', 'text', 'target']), ('rec, marks, text: a laboratory', ['rec', 'marks', 'text']),
     ('op, a, b, c: an operation on sets', ['op', 'a', 'b', 'c']),
])
TOG = OrderedDict()
for g, pats in TOGETHER.items():
    got = [x for x in FNS if all(any(re.fullmatch(p, n) for n, _ in x.params) for p in pats)]
    if g.startswith('rec, n: '):
        got = [x for x in got if dict(x.params).get('n') == 'usize' and x.crate != 'copying'
            and not {'row', 'table'} & {n for n, _ in x.params}]
    if g.startswith('times'):
        got = [x for x in got if 'rec' not in dict(x.params)]
    if g.startswith('marks, count'):
        got = [x for x in got if 'table' not in dict(x.params)]
    if g.startswith('low, end'):
        got = [x for x in got if x.where != 'text/table']
    if g.startswith('table, count'):
        got = [x for x in got if x.key not in ('evaluation/lib eval', 'evaluation/lib child', 'evaluation/rows row_at',
            'text/table kind')]
    if len(got) > 2:
        TOG[g] = got
POINTS['5b parameters that travel together: groups of three functions or more'] = [(got[0],
    '%s | %d functions | %d files' % (g, len(got), len({x.path for x in got}))) for g, got in TOG.items()]

# ---- 6. buffers, parallel arrays, sorted lists, arenas

point('6a slice parameter with its length in use beside it', [(x, r) for x in FNS for r in [', '.join(
    '%s, %s' % (s, c) for s, c in (('table', 'count'), ('table', 'n'), ('rec', 'n'), ('s', 'n'), ('marks', 'count'), ('times', 'count'),
    ('store', 'n'), ('summary', 'n'), ('flags', 'n'), ('set', 'n'), ('rows', 'count'))
    if not (c == 'n' and s in ('table', 'rec') and {'table', 'count'} <= set(dict(x.params)))
        and not (s == 'marks' and 'table' in dict(x.params)) and re.match(r'&', dict(x.params).get(s, ''))
            and dict(x.params).get(c) in ('usize', 'u32'))] if r],
    drop=[('evaluation/lib eval', r'table: &Rows', 'n is one node'), ('evaluation/lib child', r'table: &Rows', 'n is one node'),
        ('evaluation/node leaf_at', r'n: usize', 'n is one node'),
          ('evaluation/rows row_at', r'n: usize', 'n is one row'), ('text/table kind', r'n: usize', 'n is one row'),
          ('parser/table put', r'n: usize', 'n is one row'), ('parser/table put_unary', r'n: usize', 'n is one row'),
           ('parser/table put_binary', r'n: usize', 'n is one row')],
    add=[('live/lib thin_into', r'held: usize', 'live, held'), ('slot/lib put_run', r'words: &mut', 'words, n'),
        ('join/lib append', r'n: usize', 'set, n'), ('copying/lib copy_bytes', r'n: usize', 's, from, n'),
         ('copying/lib copy_blocks', r'n: usize', 's, from, n'), ('copying/lib copy_within', r'n: usize', 's, from, n'),
          ('page/lines runs', r'n: usize', 'set, n'), ('pair/lib search', r'n: usize', 'times, n'),
           ('leaves/times shift', r'n: usize', 'times, n')])
point('6b array made by hand, of which a first part is in use', [(x, ', '.join(r)) for x in FNS for r in [[
    m.group(1) for m in re.finditer(r'let mut (\w+) = \[', x.body) if re.search(r'&%s\[\.\.' % m.group(1), x.body)
        or m.group(1) in ('table',)
    or re.search(r'\b%s, count\b|search\(&%s' % (m.group(1), m.group(1)), x.body)]] if r],
    add=[('runset/lib RunSet::or_and', r'&shared\[\.\.n\]', 'shared, n'), ('merge/lib intersect', r'set\[CUTS\]', 'set, its last word'),
         ('thin/lib write_kept', r'let mut flags', 'begins, flags')])
point('6b2 array made by hand for a set, with its length in the last word',
    [(x, 'sets: %d' % len(r)) for x in FNS for r in [re.findall(r'let mut \w+ = \[0u32; (?:runset::)?SLOT\]', x.body)] if r],
      add=[('evaluation/lib at_first', r'\[0u32; TABLE\]', '2 tables of 32'),
          ('evaluation/lib walk', r'\[0u32; TABLE\]', '2 tables of 32')])
point('6c layout with a length beside the bytes', [], add=[
    ('slot/lib SLOT', r'CUTS \+ 1', 'cuts, and their number in the last word'),
     ('live_state/lib MARKS_LENGTH', '4', 'MARKS_LENGTH and MARKS'),
    ('live_state/lib HELD', '4', 'HELD and READINGS, for the run and for each moment'), ('report_state/lib SIZE', '48', 'SIZE and TEXT'),
    ('ask/input Input', r'kept: usize', 'kept, of a store'), ('lexer/numbers Digits', r'end: usize', 'value and end'),
     ('grammar/lib Found', r'At\(u32, usize\)', 'code and end'),
    ('grammar/lib Leaf', r'Node\(Row, usize\)', 'node and end'), ('parser/lib Got', r'Upto\(usize, usize\)', 'end and number of rows')])
point('6d parallel arrays', [], add=[
    ('flagging/lib flag_kept', r'begins[\s\S]*flags', 'begins and flags beside the records'),
     ('flagging/lib flag_extremes', r'begins[\s\S]*flags', 'begins and flags beside the records'),
    ('thin/lib write_flagged', r'begins[\s\S]*flags', 'begins and flags beside the records'),
     ('thin/lib write_kept', r'begins[\s\S]*flags', 'begins and flags beside the records'),
    ('thin/lib copy_flagged', r'flags', 'flags beside the records'), ('flagging/lib flag_begins', r'begins', 'begins beside the records'),
    ('flagging/lib flag_neighbours', r'flags', 'flags beside the records'),
     ('flagging/lib flag_slope_ends', r'flags', 'flags beside the records'),
    ('evaluation/lib eval', r'own[\s\S]*other', 'own and other beside the rows'),
     ('evaluation/lib at_first', r'own[\s\S]*other', 'own and other beside the rows'),
    ('evaluation/lib walk', r'let mut a[\s\S]*let mut b', 'a and b beside the rows'),
     ('sheet/lib first_additions', r'PLACES', 'first, by pigment')])
point('6e sorted list searched by hand', [], add=[
    ('flagging/lib first_after', r'middle', 'halving'), ('pair/lib search', r'sought', 'two places'),
     ('differences/lib first', r'while', 'onwards'),
    ('differences/lib see', r'while', 'onwards'), ('differences/lib sweep', r'while', 'onwards, row by row'),
     ('differences/lib least', r'while', 'two places'),
    ('join/lib next', r'a\[i\] < b\[j\]', 'two places'), ('join/lib extend', r'while', 'onwards'),
     ('join/lib join', r'while', 'two places'), ('merge/walk merge', r'while', 'two places'),
    ('runset/lib RunSet::has', r'while', 'all cuts, though they ascend'),
     ('runset/lib RunSet::distance', r'while', 'all runs, though they ascend'), ('slot/lib ends_at', r'n - 1', 'the last')])
point('6f arena of indices', [], add=[
    ('grammar/lib Row', r'first: u32', 'first and second: rows of the children'), ('parser/table put', r'4 \* n', 'row n'),
     ('parser/table put_unary', r'child', 'child'), ('parser/table put_binary', r'left', 'children'),
    ('evaluation/rows row_at', r'4 \* n', 'row n'), ('evaluation/rows copy', r'4 \* count', 'rows'),
     ('text/table kind', r'4 \* n', 'row n'), ('text/table some_kind', r'while', 'all rows'),
    ('lab/barred some_barred', r'row_at', 'all rows'), ('evaluation/lib eval', r'row\.first', 'children'),
     ('evaluation/lib child', r'row_at', 'row n'), ('evaluation/lib evaluate', r'count - 1', 'the root is the last row'),
    ('evaluation/lib at_first', r'count - 1', 'the root is the last row'),
     ('evaluation/lib walk', r'count - 1', 'the root is the last row'),
    ('evaluation/slots set_in', r'SLOT \* m', 'slot m'), ('evaluation/slots put', r'SLOT \* m', 'slot m'),
     ('evaluation/node leaf_at', r'SLOT \* n', 'slot n'),
    ('evaluation/node next_at', r'set_in', 'slots'), ('evaluation/node one_at', r'SLOT \* n', 'slots'),
     ('evaluation/node two_at', r'SLOT \* n', 'slots'),
    ('assured/lib traits_at', r'row\.first', 'children'), ('assured/lib judge', r'n - 1', 'the root is the last row'),
     ('question/limits asks', r'row\.first', 'children'),
    ('question/answered of_leaf', r'count - 1', 'the root is the last row'),
     ('question/answered of_tree', r'count - 1', 'the root is the last row'),
      ('question/answered is_leaf', r'count - 1', 'the root is the last row'),
    ('band/lib of_text', r'count - 1', 'the root is the last row'), ('live_state/lib run_at', r'RUN_ROOM \* j', 'the run of moment j')])

# ---- 7. switches

LADDER = re.compile(
    r'\b(?:if |else if )?\(?(?:kinds::\w+|\d)?\s*(?:row\.|root\.)?(kind|op|relation|code|curve|field)\)? ?(?:==|<=|<) ?(?:kinds::\w+|\d+)'
    r'|between\(kind, kinds::\w+, kinds::\w+\)|(?:kinds::\w+|\d) (?:<=|<) (?:row\.)?kind')


def tests(x):
    return len(LADDER.findall(x.body))


point('7a ladder of ifs on a kind or an operator number (two tests or more)', [(x, '%d tests' % tests(x)) for x in FNS if tests(x) > 1],
      drop=[('assured/leaf kind_of', r'kind == kinds::PIGMENT', 'no switch: each field is a test')],
      add=[('assured/leaf leaf', r'between\(kind', '2 tests'), ('lab/barred is_barred', r'between\(kind', '1 test and 2 calls'),
          ('lexer/lib named', r'is_bare\(kind\)', '2 calls'), ('lab/barred names_b', r'names_both\(kind\)', '1 test and 2 calls')])
point('7a2 one test on a kind or an operator number', [(x, '1 test') for x in FNS if tests(x) == 1],
      drop=[(k, p, 'a test, no switch') for k, p in (('lexer/lib other_curve', 'field'), ('lab/barred is_barred', 'kind'),
          ('lab/barred names_b', 'kind'), ('lexer/lib named', 'kind'), ('listing/lib in_entries', '1 < curve'),
           ('pair/lib in_accepted', '1 < curve'), ('question/answered is_leaf', 'kind'),
            ('assured/leaf is_curve', 'field'), ('assured/leaf is_eq', 'relation'), ('assured/leaf is_gt', 'relation'))])
point('7b ladder of ifs over the words of a list',
    [(x, 'words: %d' % len(re.findall(r'if spelled\(', x.body))) for x in FNS if re.search(r'if spelled\(', x.body)])
point('7c bool parameter or local that chooses the step',
    [(x, '`%s`' % n) for x in FNS for n, t in x.params if t == 'bool' and n in ('near', 'up', 'last', 'ahead')], each=True,
      add=[('evaluation/lib walk', r'let mut flip', 'local `flip`')])
point('7c2 bool parameter by which the step is taken or not',
      [(x, '`%s`' % n) for x in FNS for n, t in x.params if t == 'bool'
          and n in ('here', 'seen', 'wanted', 'flagged', 'sought', 'there', 'armed')], each=True)
point('7d switch by the number of a step', [(x, '') for x in FNS if re.search(r'match (?:step|state|phase|stage)\b', x.body)],
      drop=[('ask/input is_whole', r'match state', 'a match that gives a bool'),
          ('ask/input goes_on', r'match state', 'a match that gives a bool')])
point('7e table of functions', [(x, '') for x in FNS if re.search(r'\[[^\]]*\bfn\(|: fn\(|&dyn ', x.text)])

# ---- 8. proofs

PROOF = [p for p in glob.glob('crates/*/proofs/**/*', recursive=True) if os.path.isfile(p)]


def lines(ps):
    return sum(open(p, encoding='utf-8').read().count('\n') for p in ps)


ANSWER = [p for p in PROOF if os.path.basename(p) == 'Answers.antt']
INVARIANT = [p for p in PROOF if os.path.basename(p) == 'Invariants.antt']
LAW = [p for p in PROOF if '/proofs/laws' in p]
GOALS = sum(len(re.findall(r'^(?:abbrev )?(?:pub )?[\w-]+ : goal\.', open(p, encoding='utf-8').read(), re.M)) for p in ANSWER)
REST = [p for p in PROOF if p not in ANSWER and p not in INVARIANT and p not in LAW]


def main():
    full = '-l' in sys.argv[1:]
    print('files %d  lines %d  functions %d  structs %d  enums %d  constants %d' % (len(FILES), lines(FILES), len(FNS), len(STRUCTS),
        len(ENUMS), len(CONSTS)))
    for name, found in POINTS.items():
        extra = ''
        if name.startswith('1e field'):
            extra = ' (in %d functions and types)' % len({x.key for x, _ in found})
        if name == '3 `while`':
            extra = ' (' + ', '.join('%s: %d' % (k, v) for k,
                v in sorted(KINDS3.items())) + '; beside them for: %d, loop: %d)' % (OTHER3['for'], OTHER3['loop'])
        if name.startswith('4b'):
            extra = ' (%d casts; lesser is called %d times, greater %d)' % (NCASTS, CALLS4['lesser'], CALLS4['greater'])
        print('%-75s %4d%s' % (name, len(found), extra))
        if full:
            for x, r in found:
                print('    %s:%d %s%s' % (x.path, x.line, x.name, '  ' + r if r else ''))
            d, a = NOTES.get(name, ([], []))
            for x, r in d:
                print('    - no place: %s:%d %s  %s' % (x.path, x.line, x.name, r))
            if a and len(a) < len(found):
                print('    - added by reading: ' + '; '.join('%s %s' % (x.where, x.name) for x, _ in a))
    print('%-75s %4d files, %d lines' % ('8 proofs', len(PROOF), lines(PROOF)))
    for n, ps in (('answers', ANSWER), ('invariants', INVARIANT), ('laws', LAW), ('other', REST)):
        print('%-75s %4d files, %d lines' % ('8 proofs: ' + n, len(ps), lines(ps)))
    print('%-75s %4d' % ('8 proofs: answered goals', GOALS))
    print('%-75s %4d' % ('named above and no longer there', len(GONE)))
    if full:
        for g in GONE:
            print('    ' + g)


if __name__ == '__main__':
    main()
