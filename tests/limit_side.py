"""Checks of the source who reckons the right side of rules 18 to 20 (document 02,
R-3): `limits::limit_of` alone, which a verdict calls once for each class, and on
the way to which no call stands in a loop.

    figures     only limit_of asks for the coefficients of the percentile lines,
                only row_of reads the table, and only the functions that give a part
                of a row ask for one; slopes and intercepts stand in the table alone,
                746 in line_of and 2592 in limit_of, which alone makes a PowerLimit
    classes     limit_of is called three times in all, by one function, for each
                class with that class's tally
    way         from the call verdict down to it, each function is called at one
                place, and no call stands in a loop
    names       the functions that other crates could name are named nowhere but in
                those calls, and no crate of theirs is imported whole or has another
                name. An import in a group counts as one for each of its names;
                contracts, attributes and ghost imports are no code and don't count

Then the same of sources with a fault put in: each must be found, by the check that
is meant for it.

Run: python3 tests/limit_side.py [FOLDER]     (of the crates; default: crates)

Each check that fails has a line; the last line is 'N passed, M failed'.
"""

import os
import re
import sys

CRATES = os.path.join(os.path.dirname(os.path.abspath(__file__)), '..', 'crates')
SIDE, VERDICT = 'limits::limit_of', 'calls::verdict'
OUTSIDE = '(outside its functions)'
ROW, COEFFICIENTS = 'limits::row_of', 'limits::coefficients_of'
READERS = {'limits::upper', 'limits::share_of', COEFFICIENTS}
CALLERS = {'limits::line_of': {SIDE}, COEFFICIENTS: {SIDE}, ROW: READERS}
TABLES = {'TABLE': {ROW, 'limits::' + OUTSIDE}, 'LINES': {'limits::' + OUTSIDE}}
FIGURES = {figure: {'limits::' + OUTSIDE} for figure in (136, 144400, 742, 1896600)}
FIGURES.update({746: {'limits::line_of'}, 2592: {SIDE}})
LIMIT = 'PowerLimit'
NAMED = ('limit_of', 'limits_of', 'dynamics_rules', 'verdict::verdict', 'area::judge')
CRATES_OF_WAY = ('limits', 'power', 'verdict', 'area', 'calls')
CLASSES = {'SpeedClass::Urban': 'urban', 'SpeedClass::Rural': 'rural', 'SpeedClass::Motorway': 'motorway'}

TOKEN = re.compile(r'[A-Za-z_]\w*(?:\s*::\s*[A-Za-z_]\w*)*|\d\w*(?:\.\d\w*)?|[^\s\w]')
LOOPS = ('while', 'for', 'loop')
CONTRACT = ('requires', 'ensures')


class Call:
    """A call: who calls, whom, with which arguments (as text), in a loop or not."""

    def __init__(self, caller, callee, arguments, looped):
        self.caller, self.callee, self.arguments, self.looped = caller, callee, arguments, looped


class Source:
    """What the functions of some crates call, the numbers that stand in each and
    outside of them, who names a table or makes a limit, how often each name is
    named, and who imports a crate of the way whole or under another name."""

    def __init__(self, texts):
        self.functions, self.calls, self.numbers, self.named = set(), [], {}, {}
        self.tables, self.limits, self.renamed = {name: set() for name in TABLES}, set(), set()
        parsed = [(crate, ungrouped(tokens_of(text))) for crate, text in texts]
        for crate, tokens in parsed:
            self.functions.update(crate + '::' + name for name, _, _ in bodies(tokens))
        for crate, tokens in parsed:
            self.count_names(crate, code_of(tokens))
            aliases, rest = imports(tokens), list(tokens)
            for name, at, end in reversed(list(bodies(tokens))):
                self.read(crate, crate + '::' + name, tokens[at:end], aliases)
                del rest[at:end]
            self.note(crate + '::' + OUTSIDE, rest)

    def count_names(self, crate, tokens):
        for at, token in enumerate(tokens):
            if tokens[at - 1] != 'fn':
                for name in {token, token.split('::')[-1]}:
                    self.named[name] = self.named.get(name, 0) + 1
            if token in CRATES_OF_WAY and tokens[at - 1:at] == ['use']:
                self.renamed.add(crate)

    def note(self, place, tokens):
        """The numbers of a place, and whether it names a table or makes a limit."""
        self.numbers.setdefault(place, set()).update(number(token) for token in tokens if token[0].isdigit())
        last = [token.split('::')[-1] for token in tokens]
        for name in TABLES:
            if name in last:
                self.tables[name].add(place)
        if any(pair == (LIMIT, '{') and last[at - 1:at] != ['struct'] for at, pair in enumerate(zip(last, last[1:]))):
            self.limits.add(place)

    def read(self, crate, caller, body, aliases):
        looped = in_loops(body)
        self.note(caller, body)
        for at, token in enumerate(body[:-1]):
            if body[at + 1] != '(' or not re.match(r'[A-Za-z_]', token):
                continue
            token = re.sub(r'^(crate|self)::', '', token)
            callee = aliases.get(token, token if '::' in token else crate + '::' + token)
            if callee in self.functions:
                inside = body[at + 2:closing(body, at + 1)]
                self.calls.append(Call(caller, callee, inside, looped[at]))

    def callers(self, name):
        return [call for call in self.calls if call.callee == name]


def number(token):
    """The value of a literal, without its suffix."""
    return int(re.sub(r'(?<=[0-9a-fA-F])([ui](8|16|32|64)|usize|isize)$', '', token.replace('_', '')).split('.')[0], 0)


def tokens_of(text):
    """The words and signs of a text, without comments, a literal of bytes as 0."""
    literals = r'"(?:\\.|[^"\\])*"' + r"|b'(?:\\.|[^'])'|//[^\n]*"
    text = re.sub(literals, lambda found: '' if found[0].startswith('//') else '0', text)
    return [re.sub(r'\s', '', token) for token in TOKEN.findall(text)]


def closing(tokens, at):
    """The place of the bracket that closes the one at a place."""
    pairs, depth = {'(': ')', '{': '}', '[': ']'}, 0
    for place in range(at, len(tokens)):
        depth += (tokens[place] == tokens[at]) - (tokens[place] == pairs[tokens[at]])
        if depth == 0:
            return place
    raise ValueError('a bracket is not closed')


def ungrouped(tokens):
    """The tokens with an import of its own for each name that is imported in a group,
    as `use a::b; use a::c as d;` for `use a::{b, c as d};`; ghost imports stay."""
    found, at = [], 0
    while at < len(tokens):
        if tokens[at] == 'use' and tokens[at - 1:at] != ['ghost']:
            end = tokens.index(';', at)
            for item in items_of(tokens[at + 1:end]):
                found += ['use', *item, ';']
            at = end
        else:
            found.append(tokens[at])
        at += 1
    return found


def items_of(tree):
    """What one `use` names: the tokens of each name, with what stands behind it (`as b`, `::*`)."""
    if '{' not in tree:
        return [tree]
    at = tree.index('{')
    head, inner, items, depth = tree[:at], tree[at + 1:closing(tree, at)], [[]], 0
    for token in inner:
        depth += (token == '{') - (token == '}')
        if token == ',' and depth == 0:
            items.append([])
        else:
            items[-1].append(token)
    path = '::'.join(token for token in head if token != ':')
    return [under(path, rest) for item in items if item for rest in items_of(item)]


def under(path, item):
    """An item of a group, below the path of the group; `self` is that path."""
    if path == '':
        return item
    if item[0] == 'self':
        return [path, *item[1:]]
    return [path, ':', ':', *item] if item[0] == '*' else [path + '::' + item[0], *item[1:]]


def code_of(tokens):
    """The tokens without contracts, attributes and ghost imports."""
    found, at = [], 0
    while at < len(tokens):
        if tokens[at] == 'ghost' and tokens[at + 1:at + 2] == ['use']:
            at = tokens.index(';', at)
        elif tokens[at] in CONTRACT:
            at = closing(tokens, tokens.index('{', at))
        elif tokens[at] == '#' and '[' in tokens[at + 1:at + 3]:
            at = closing(tokens, tokens.index('[', at))
        else:
            found.append(tokens[at])
        at += 1
    return found


def bodies(tokens):
    """Of each function its name and the places of its body's tokens, from and to; its
    contract is passed over."""
    at = 0
    while at < len(tokens):
        if tokens[at] != 'fn':
            at += 1
            continue
        name, at = tokens[at + 1], closing(tokens, parameters(tokens, at + 2))
        while tokens[at] not in ('{', ';'):
            at = closing(tokens, tokens.index('{', at)) if tokens[at] in CONTRACT else at
            at += 1
        if tokens[at] == '{':
            end = closing(tokens, at)
            yield name, at + 1, end
            at = end


def parameters(tokens, at):
    """The place of the bracket before a function's parameters; generic parameters may stand before it."""
    depth = 0
    while tokens[at] != '(' or depth > 0:
        depth += (tokens[at] == '<') - (tokens[at] == '>' and tokens[at - 1] != '-')
        at += 1
    return at


def imports(tokens):
    """What `use` items name: {name here: whole name}."""
    named = {}
    for at, token in enumerate(tokens):
        if token == 'use' and tokens[at - 1:at] != ['ghost']:
            whole = tokens[at + 1]
            short = tokens[at + 3] if tokens[at + 2] == 'as' else whole.split('::')[-1]
            named[short] = whole
    return named


def in_loops(body):
    """For each token whether it stands in a loop, the loop's test included."""
    looped = [False] * len(body)
    for at, token in enumerate(body):
        if token in LOOPS:
            end = block_end(body, at)
            looped[at:end] = [True] * (end - at)
    return looped


def block_end(body, at):
    """The end of the loop that begins at a place; its test may have brackets and a block of its own."""
    at += 1
    while body[at] != '{':
        at = (closing(body, at) if body[at] in '([' else at) + 1
    end = closing(body, at)
    while body[end + 1:end + 2] == ['{']:
        end = closing(body, end + 1)
    return end


def listed(names):
    return ', '.join(sorted(names)) or 'nothing'


def faults(source):
    """Each check's fault, or None."""
    for name, callers in CALLERS.items():
        found = {call.caller for call in source.callers(name)}
        yield None if found == callers else '%s is called by %s' % (name, listed(found))
    for name, places in TABLES.items():
        found = source.tables[name]
        yield None if found == places else '%s stands in %s' % (name, listed(found))
    for figure, places in FIGURES.items():
        found = {name for name, numbers in source.numbers.items() if figure in numbers}
        yield None if found == places else '%d stands in %s' % (figure, listed(found))
    yield None if source.limits == {SIDE} else 'a %s is made by %s' % (LIMIT, listed(source.limits))
    asked = source.callers(SIDE)
    yield None if len(asked) == len(CLASSES) else '%s is called %d times' % (SIDE, len(asked))
    for name, field in CLASSES.items():
        times = sum(call.arguments == [name, ',', 't', '.', 'tally', '.', 'classes', '.', field] for call in asked)
        yield None if times == 1 else '%s is called %d times for %s' % (SIDE, times, field)
    for name in NAMED:
        calls = sum(name in (call.callee, call.callee.split('::')[-1]) for call in source.calls)
        named = source.named.get(name, 0)
        yield None if named == calls else '%s is named %d times and called %d' % (name, named, calls)
    yield 'a crate of the way is imported whole by %s' % listed(source.renamed) if source.renamed else None
    yield from way(source)


def way(source):
    """The checks on the way up from limit_of to the verdict."""
    name, seen = SIDE, set()
    while name != VERDICT:
        seen.add(name)
        calls = source.callers(name)
        for call in calls:
            yield '%s calls %s in a loop' % (call.caller, name) if call.looped else None
        if name != SIDE:
            yield None if len(calls) == 1 else '%s is called %d times' % (name, len(calls))
        callers = {call.caller for call in calls}
        if len(callers) != 1 or callers <= seen:
            yield '%s is called by %s' % (name, listed(callers))
            return
        name = callers.pop()
    yield None


# Faults: what is wrong, the crate, the text and what it becomes, and what must be said of it.
WALK = 'let v = speeds.at(i);'
BOUNDS = 'acceleration::bounds_of(limits_of(t))'
BROKEN = 'let b = broken(trip, Speeds { bytes: speeds, n }, e);'
URBAN = 'limits::limit_of(SpeedClass::Urban, t.tally.classes.urban)'
IN_CLASS = '// Whether a speed is of a class.'
FIRST = '// The speed of second n goes after the first n.'
MODEL = 'use model::{'
WRONG = [
    ('the walk reckons it for each sample', 'power', WALK,
     WALK + ' let s = %s;' % URBAN,
     'power::count_samples calls limits::limit_of in a loop'),
    ('the walk asks for all limits at each sample', 'power', WALK,
     WALK + ' let l = limits_of(t);',
     'power::count_samples calls power::limits_of in a loop'),
    ('a loop asks in its test', 'power', 'for i in 1..last {',
     'for i in 1..limits_of(t).urban.side {',
     'power::count_samples calls power::limits_of in a loop'),
    ('a class is asked for twice', 'power', BOUNDS,
     '%s, %s' % (BOUNDS, URBAN),
     'limits::limit_of is called 2 times for urban'),
    ('the limits are reckoned twice', 'power', BOUNDS,
     BOUNDS + ', crate::limits_of(t)',
     'power::limits_of is called 2 times'),
    ("a class by another's tally", 'power', '(SpeedClass::Rural, t.tally.classes.rural)',
     '(SpeedClass::Rural, t.tally.classes.urban)',
     'limits::limit_of is called 0 times for rural'),
    ('a class is left out', 'power', 'limits::limit_of(SpeedClass::Rural, t.tally.classes.rural)',
     URBAN,
     'limits::limit_of is called 0 times for rural'),
    ('another function takes a slope', 'limits', IN_CLASS,
     'fn f(c: SpeedClass, n: u64) -> u64 { coefficients_of(c, Line::Slow).slope * n }',
     'limits::coefficients_of is called by limits::f, limits::limit_of'),
    ('another takes an intercept', 'limits', IN_CLASS,
     'fn f(c: SpeedClass) -> u64 { coefficients_of(c, Line::Slow).intercept }',
     'limits::coefficients_of is called by limits::f, limits::limit_of'),
    ('another takes a factor', 'limits', IN_CLASS,
     'fn f(c: SpeedClass) -> u64 { coefficients_of(c, Line::Fast).factor }',
     'limits::coefficients_of is called by limits::f, limits::limit_of'),
    ('another chooses the line', 'limits', IN_CLASS,
     'fn f(n: u64, s: Distance) -> Line { line_of(n, s) }',
     'limits::line_of is called by limits::f, limits::limit_of'),
    ('another reads the figures', 'limits', IN_CLASS,
     'fn f(c: SpeedClass, n: u64) -> u64 { row_of(c).lines[0].slope * n }',
     'limits::row_of is called by ' + listed(READERS | {'limits::f'})),
    ('another reads the table', 'limits', IN_CLASS,
     'fn f(j: usize) -> u64 { TABLE[j].lines[0].slope }',
     'TABLE stands in limits::(outside its functions), limits::f, limits::row_of'),
    ('another reads the lines', 'limits', IN_CLASS,
     'fn f(j: usize) -> u64 { LINES[j].slope }',
     'LINES stands in limits::(outside its functions), limits::f'),
    ('the coefficients have another name', 'limits', 'coefficients_of(c, line_of(n, s))',
     'base(c, line_of(n, s))',
     'limits::coefficients_of is called by nothing'),
    ('a function has an intercept of its own', 'acceleration', 'if limit.factor == 0 {',
     'let s = 1_896_600u64; if limit.factor == 0 {',
     '1896600 stands in acceleration::bound_of, limits::(outside its functions)'),
    ('a constant has the other', 'power', FIRST,
     'const INTERCEPT: u64 = 0x23410;',
     '144400 stands in limits::(outside its functions), power::(outside its functions)'),
    ('a constant has the factor', 'power', FIRST,
     'const SCALE: u64 = 2592;',
     '2592 stands in limits::limit_of, power::(outside its functions)'),
    ('another crate asks, by an import', 'rule', MODEL,
     'use limits::limit_of as side; fn f(t: TripTally) -> u64 { side(SpeedClass::Urban, t.tally.classes.urban) } ' + MODEL,
     'limits::limit_of is called by power::limits_of, rule::f'),
    ('a crate has another name', 'rule', MODEL,
     'use limits as l; fn f(t: TripTally) -> u64 { l::limit_of(SpeedClass::Urban, t.tally.classes.urban) } ' + MODEL,
     'limit_of is named 4 times and called 3'),
    ('a function is named and not called', 'power', FIRST,
     'fn f() { let side = limits::limit_of; }',
     'limit_of is named 4 times and called 3'),
    ('the verdict asks for the rules in a loop', 'verdict', BROKEN,
     'let mut b = 0; while b < 1 { b = broken(trip, s, e); }',
     'verdict::verdict calls verdict::broken in a loop'),
    ('it asks for the rules twice', 'verdict', BROKEN,
     'let b = broken(trip, s, e) + broken(trip, s, e);',
     'verdict::broken is called 2 times'),
    ('it does not ask for them', 'verdict', BROKEN,
     'let b = 0;',
     'verdict::broken is called by nothing'),
    ('another names the table', 'limits', IN_CLASS,
     'fn f(j: usize) -> u64 { crate::TABLE[j].lines[0].slope }',
     'TABLE stands in limits::(outside its functions), limits::f, limits::row_of'),
    ('a slope stands elsewhere', 'acceleration', 'if limit.factor == 0 {',
     'let s = 136 * limit.side; if limit.factor == 0 {',
     '136 stands in acceleration::bound_of, limits::(outside its functions)'),
    ('a limit is made elsewhere', 'power', FIRST,
     'fn f(s: u64) -> u64 { let l = limits::PowerLimit { side: 7 * s, factor: 1 }; l.side }',
     'a PowerLimit is made by limits::limit_of, power::f'),
    ('a loop has a block in its test', 'power', 'for i in 1..last {',
     'for i in 1..{ last } { let l = limits_of(t);',
     'power::count_samples calls power::limits_of in a loop'),
    ('a loop has a struct in its test', 'power', 'for i in 1..last {',
     'for i in 1..less(P { a: n }, last) { let l = limits_of(t);',
     'power::count_samples calls power::limits_of in a loop'),
    ('a string hides a call', 'power', WALK,
     WALK + ' let s = b"//"; let l = limits_of(t);',
     'power::count_samples calls power::limits_of in a loop'),
    ('the function that judges is named and not called', 'calls', 'Ok(area::judge(',
     'let f = area::judge; Ok(area::judge(',
     'area::judge is named 2 times and called 1'),
    ('an import in a group', 'rule', MODEL,
     'use area::{judge}; ' + MODEL,
     'area::judge is named 2 times and called 1'),
    ('a crate under another name', 'rule', MODEL,
     'use power as p; ' + MODEL,
     'a crate of the way is imported whole by rule'),
    ('a function of the way has another name', 'power', 'fn limits_of(t: TripTally)',
     'fn all_limits(t: TripTally)',
     'limits_of is named 1 times and called 0'),
    ('the area is judged in a loop', 'area', 'verdict::verdict(t,',
     'while n < 9 { n = n + 1; } loop { verdict::verdict(t, b, n, e); } verdict::verdict(t,',
     'area::judge calls verdict::verdict in a loop'),
    ('the call judges twice', 'calls', 'Ok(area::judge(',
     'let v = area::judge(area, t, n as usize); Ok(area::judge(',
     'area::judge is called 2 times'),
]


def read(folder):
    texts = []
    for crate in sorted(os.listdir(folder)):
        sources = os.path.join(folder, crate, 'src')
        for entry in sorted(os.listdir(sources)) if os.path.isdir(sources) else ():
            if not entry.endswith('.rt'):
                raise SystemExit('%s: a folder or another file: not read' % os.path.join(sources, entry))
            with open(os.path.join(sources, entry), encoding='utf-8') as file:
                texts.append((crate, file.read()))
    return texts


def missed(texts):
    """For each fault put in, that it was not found, or None."""
    for what, crate, old, new, said in WRONG:
        if sum(name == crate and text.count(old) == 1 for name, text in texts) != 1:
            yield 'fault to put in: "%s" does not stand in %s once' % (old, crate)
            continue
        edited = [(name, text.replace(old, new) if name == crate else text) for name, text in texts]
        found = [fault for fault in faults(Source(edited)) if fault is not None]
        yield None if said in found else 'not found: %s (%s)' % (what, listed(found))


def main():
    texts = read(sys.argv[1] if len(sys.argv) > 1 else CRATES)
    results = list(faults(Source(texts))) + list(missed(texts))
    wrong = [result for result in results if result is not None]
    for line in wrong:
        print(line)
    print('%d passed, %d failed' % (len(results) - len(wrong), len(wrong)))
    return 1 if wrong else 0


if __name__ == '__main__':
    sys.exit(main())
