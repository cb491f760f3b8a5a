#!/usr/bin/env python3
"""Counts the shape of the repository, finds what stands twice in it, and holds the pages to it.

usage: tools/shape.py counts [--figures] [FOLDER]   one line a figure, its places below it (--figures: no places)
       tools/shape.py twice [--lines N] [FOLDER]    equal statements, equal bodies, and runs of N (6) or more equal lines
       tools/shape.py crates [--write] [FOLDER]     ARCHITECTURE.md's table of crates (--write: into the page)
       tools/shape.py pages [FOLDER]                files, functions, clauses and edits that the pages name and that are not there

The first two read text as `rt fmt` and `cargo fmt` lay it out: they show places to look at, and prove nothing. What they do not see:
 - whose clause `c.f.ensures.0` is goes by the name f, or by the `let` that gives it; a clause that a `let` gives is not counted;
 - who cites what goes by imports, paths and prefixes, not by a record's fields; in its own file a declaration is cited where its name stands;
 - hypotheses in another order, a statement after unfolding or in two parts, equal code in another order, and one name for two things:
   variables are numbered as they come, implicit arguments count as explicit ones, and of a module's arguments those that are named;
 - what stands below a `where`, a body of six words or a function of two lines is compared by runs of lines alone, without `use` lines and comments.
"""
import collections, glob, itertools, os, pathlib, re, sys

CODE, PROOFS, EDGE = ['crates/*/src/**/*.rt'], ['crates/*/specs/**/*.antt', 'crates/*/proofs/**/*.antt'], ['rust/*/src/**/*.rs', 'rust/*/tests/**/*.rs']
BASE = ('rules', 'statement', 'contour_recovery', 'file_format')  # the crates that hold only definitions
LIMITS = '2916 4096 65535 65536 131072 1048576 16384 1051492 268435456 346112'
PARTICIPLES = 'begun built cut drawn found given held kept known led left lent lost made met put read said sent shown stood taken told written'
KEYWORDS = set('_ let in where elim λ record omega arith rw sym ap subst inl inr refl absurd if else for while loop match return self true false fn pub mut const'
               ' impl struct enum break continue as ref move dyn unsafe usize u8 u16 u32 u64 i32 i64 f64 bool str requires ensures ghost prove'.split())
ANTT = re.compile(r'[^\s(){}\[\];,.«»"`]+|[(){}\[\];,.]')
RUST = re.compile(r'\d\w*(?:\.\d\w*)?|\w+|\.\.|::|[^\s\w]')
DECLARED = re.compile(r'((?:(?:abbrev|unfoldable|pub|opaque|private|irrelevant)\s+)*)([^\s(){}:;=,.|]+)(?: \{[^}:]*\})?\s*:(?=\s)')
TYPE = re.compile(r'(pub )?(record|data)\s+(\S+)\s*(.*)', re.S)
# a head, then a brace beside it or below its clauses, and the body to the brace of the same depth
FUNCTION = re.compile(r'^( *)(?:pub )?(?:const )?(extern "C" )?fn (\w+)(?:<[^{;]*?>)?\(((?:[^{;]|; )*?)\)(?: -> (?:[^{;]|; )*?)?(?: \{|\n(?:\1 [^\n]*\n)*?\1\{)\n(.*?)^\1\}$', re.M | re.S)
Item = collections.namedtuple('Item', 'path line kind public name given head body')
Function = collections.namedtuple('Function', 'path line name exported parameters body')


def read(*patterns):
    paths = sorted(p for pattern in patterns for p in glob.glob(pattern, recursive=True) if '/target/' not in p)
    return {path: pathlib.Path(path).read_text(encoding='utf-8').splitlines() for path in paths}


def code(path, line):
    """the line without its comment"""
    if path.endswith('.antt'):
        return re.sub(r'(^|\s)--(\s.*)?$', '', line)
    return re.sub(r'//.*$', '', re.sub(r'"(\\.|[^"\\])*"', lambda m: m.group(0).replace('//', '  '), line))


def chunks(path, lines):
    """(line, indent, text) of each line and the deeper ones below it; those in a module begin anew"""
    level, chunk = 0, None
    for n, line in enumerate(lines, 1):
        line = code(path, line)
        if not line.strip():
            continue
        indent = len(line) - len(line.lstrip())
        if chunk and indent > level and not re.match(r'\s*module\b.*\bwhere\s*$', chunk[2], re.S):
            chunk[2] += '\n' + line
            continue
        if chunk:
            yield chunk
        level, chunk = indent, [n, indent, line]
    if chunk:
        yield chunk


def items(path, lines):
    """the declarations of an antt file but for those below a `where`; each with the arguments of the modules around it"""
    found, around = [], []
    for n, indent, text in chunks(path, lines):
        text = text.strip()
        around = [(i, given) for i, given in around if i < indent]
        typed, declared = TYPE.match(text), DECLARED.match(text)
        if text.startswith('module '):
            around.append((indent, re.sub(r'^module\s+\S+|\bwhere\s*$', '', text)))
        elif typed:
            found.append(Item(path, n, typed.group(2), bool(typed.group(1)), typed.group(3), [g for _, g in around], '', [typed.group(4)]))
        elif declared and not text.startswith('use '):
            kind = 'definition' if re.search('abbrev|unfoldable', declared.group(1)) else 'lemma'
            found.append(Item(path, n, kind, 'pub' in declared.group(1), declared.group(2), [g for _, g in around], text[declared.end():], []))
        elif found and not re.match(r'(use|unfolding|infix\w*|pub mod) ', text):
            found[-1].body.append(text)
    return found


def imports(lines):
    """the module and name of each imported name, and the module of each prefix"""
    text = '\n'.join(lines)
    names, use = {}, r'^\s*(?:ghost )?use\s+([A-Za-z][\w.]*?)'
    for module, listed in re.findall(use + r'\.\{([^}]*)\}', text, re.M):
        for name in listed.split(','):
            names[name.split(' as ')[-1].strip()] = (module, name.split(' as ')[0].strip())
    return names, {prefix: module for module, prefix in re.findall(use + r'\s+as\s+([\w-]+)', text, re.M)}


def functions(files):
    """the functions with a body"""
    for path, text in files.items():
        for m in FUNCTION.finditer('\n'.join(text)):
            parameters = [p for p in re.split(r',(?![^(\[<]*[)\]>])', m.group(4)) if p.strip()]
            body = [code(path, line) for line in m.group(5).splitlines()]
            yield Function(path, m.string.count('\n', 0, m.start()) + 1, m.group(3), bool(m.group(2)), parameters, body)


def lines_of(begin, path, lines):
    """the numbers of the lines in what begins so, over as many lines as its brackets are open"""
    found, depth = set(), 0
    for n, line in enumerate(code(path, l) for l in lines):
        if depth > 0 or re.match(begin, line):
            found.add(n)
            depth = max(depth, 0) + len(re.findall(r'[({\[]', line)) - len(re.findall(r'[)}\]]', line))
    return found


def in_proofs(antt, names):
    """by figure, how many places each file has"""
    hits = {key: collections.Counter() for key in ('before', 'own', 'kit', 'holes')}
    for path, text in antt.items():
        whole = '\n'.join(code(path, l) for l in text)
        hits['before'][path] = len(re.findall(r'(?:\.before){7,}', whole))
        hits['holes'][path] = len(re.findall(r'(?<![\w-])_(?:\s+_){5,}(?![\w-])', whole))
        lets = dict(re.findall(r'\blet (\w+) = (?:c\.)?([\w-]+)', whole))
        for who, clause in re.findall(r'([\w-]+)\.(ensures|requires|pre)\.\d+', whole) if '/proofs/' in path else ():
            parts = [p for p in lets.get(who, who).split('-') if p not in ('if', 'else', 'in', 'in_err', 'in_ok', 'loop', 'match', 'test')]
            hits['own' if clause != 'ensures' or parts[:1] and parts[0] in names else 'kit'][path] += 1
    return {key: +counter for key, counter in hits.items()}


def type_names(rt, found):
    places = [(i.name, i.path, i.line) for i in found if i.name[0].isupper() and (i.kind != 'lemma' or len(i.name) == 1)]
    structs = [(n, path, re.match(r'\s*(?:pub )?(?:struct|enum) (\w+)', line)) for path, text in rt.items() for n, line in enumerate(text, 1)]
    types = collections.defaultdict(list)
    for name, path, line in places + [(m.group(1), path, n) for n, path, m in structs if m]:
        types[name].append('%s:%d' % (path, line))
    return ['%s: %s' % (name, ', '.join(where)) for name, where in sorted(types.items()) if len(where) > 1]


def limits(rt):
    """the limits that are written out, in code, clauses and programs; and the kinds of marks"""
    programs = {p.split('/')[1] for p in rt if p.endswith('main.rt')}
    written, kinds = {key: collections.Counter() for key in ('code', 'clauses', 'programs')}, []
    number = re.compile(r'(?<![\w.])(%s)(?:u32|usize|u64)?(?![\w.])' % LIMITS.replace(' ', '|'))
    for path, text in rt.items():
        clauses = lines_of(r'\s*(requires|ensures|invariant|decreases|ghost)\b', path, text)
        constants = lines_of(r'\s*(pub )?const \w+\s*:', path, text)
        for n, line in enumerate(text):
            line = re.sub(r'"(\\.|[^"\\])*"', '""', code(path, line))
            key = 'programs' if path.split('/')[1] in programs else 'clauses' if n in clauses else 'code'
            for value in number.findall(re.sub(r'(?<=\d)_(?=[\du])', '', line)) if n not in constants else ():
                written[key]['%s in %s' % (value, path)] += 1
            if re.search(r'\b\w*kind\w*\s*(==|!=|≡|=|:|<|≤)\s*[0-4]\b(?!\.\.)', line) and n not in constants:
                kinds.append('%s:%d: %s' % (path, n + 1, line.strip()))
    return written, kinds


def is_participle(path):
    stem = os.path.splitext(os.path.basename(path))[0]
    return re.fullmatch(r'[A-Z]?[a-z]+', stem) and re.search('[a-z]{3}ing$|[a-z]{3}ed$|^(%s)$' % PARTICIPLES.replace(' ', '|'), stem.lower())


def module(path):
    return 'Rattle.' + path[len('crates/'):-len('.antt')].replace('/', '.')


def cited(files, found):
    """the module and name of each declaration that another file cites, and of each that its own file cites elsewhere"""
    outside, inside = set(), set()
    for path, lines in files.items():
        names, prefixes = imports(lines)
        outside.update(names.values())
        text = '\n'.join(code(path, line) for line in lines)
        outside.update((prefixes[prefix], name) for prefix, name in re.findall(r'([\w-]+)\.([^\s(){}\[\];,.]+)', text) if prefix in prefixes)
        for way, name in re.findall(r'\b((?:\w+::)+)([^\s(){}\[\],;:]+)', text):
            outside.add((module('crates/' + re.sub('^crate/', path.split('/')[1] + '/', way.replace('::', '/'))[:-1] + '.antt'), name))
    for path in {item.path for item in found}:
        own = [(item, set(ANTT.findall(' '.join([item.head] + item.body + item.given)))) for item in found if item.path == path]
        inside.update((module(path), item.name) for item, _ in own if any(item.name.strip('◌') in words for other, words in own if other is not item))
    return outside, inside


def counts(brief):
    rt, antt = read(*CODE), read(*PROOFS)
    found = [item for path in antt for item in items(path, antt[path])]
    every = list(functions(rt))

    def figure(what, shown):
        """of a number, of places, or of how many each place has"""
        if isinstance(shown, dict):
            number, places = sum(shown.values()), ['%d %s' % (n, place) for place, n in sorted(shown.items(), key=lambda h: (-h[1], h[0]))]
        else:
            number, places = (shown, []) if isinstance(shown, int) else (len(shown), shown)
        print(''.join(['%-75s %d\n' % (what, number)] + ['    %s\n' % place for place in places if not brief]), end='')
    total = lambda word, which: sum(len(f) for p, f in antt.items() if p.split('/')[2] == word and which(p.split('/')[1]))
    figure('lines of .rt', sum(map(len, rt.values())))
    figure('lines of definitions (specs/ of %s)' % ', '.join(BASE), total('specs', lambda crate: crate in BASE))
    figure('lines of other specs files', total('specs', lambda crate: crate not in BASE))
    figure('lines of proofs', total('proofs', lambda crate: True))
    figure('crates', len({p.split('/')[1] for p in rt}))
    figure('functions', len(every))
    figure('must-fail edits', len(read('crates/*/must-fail/*.edit')))
    long = lambda sizes: ['%d %s' % size for size in sorted(sizes, reverse=True)]
    over = lambda most, size, which: long((size(f), '%s %s:%d' % (f.name, f.path, f.line)) for f in every if size(f) > most and which(f))
    loops = lambda f: sum(bool(re.match(r"\s*('\w+: )?(for .* in |while |loop \{)", l)) for l in f.body)
    figure('functions with a body over 40 lines', over(40, lambda f: len(f.body), lambda f: True))
    figure('functions with over 8 parameters, exports aside', over(8, lambda f: len(f.parameters), lambda f: not f.exported))
    figure('exports with over 8 parameters', over(8, lambda f: len(f.parameters), lambda f: f.exported))
    figure('functions with more than one loop', over(1, loops, lambda f: True))
    hits = in_proofs(antt, {f.name for f in every})
    figure('.before chains of over six', hits['before'])
    figure('positional .ensures.N, .requires.N and .pre.N in proofs, of own functions', hits['own'])
    figure("the same of the kit's functions, or of one that is not told", hits['kit'])
    figure('runs of six or more _', hits['holes'])
    types = type_names(rt, found)
    figure('type names defined in more than one place', [t for t in types if t[1] != ':'])
    figure('the same, names of one letter', [t for t in types if t[1] == ':'])
    written, kinds = limits(rt)
    for key in 'code', 'clauses', 'programs':
        figure('limits written out in .rt, ' + key, written[key])
    figure('kinds of marks written out in .rt', kinds)
    figure('lines of .rt longer than 160 columns', long((len(l), '%s:%d' % (p, n)) for p, text in rt.items() for n, l in enumerate(text, 1) if len(l) > 160))
    figure('files named by a gerund or a past participle alone', list(filter(is_participle, [*rt, *antt, *read(*EDGE)])))
    outside, inside = cited({**rt, **antt}, found)
    marks = ' '.join(mark for f in read('docs/*.md', 'README.md').values() for line in f for mark in re.findall('`([^`]+)`', line))
    alone = [(i, '%s %s:%d' % (i.name, i.path, i.line)) for i in found if (module(i.path), i.name) not in outside]
    inner = [place for i, place in alone if i.public and i.kind != 'lemma' and '/specs/' in i.path]
    none = [(i, place) for i, place in alone if i.kind == 'lemma' and not i.head.strip().startswith('goal.') and (module(i.path), i.name) not in inside]
    figure('pub definitions in specs/ that nothing outside their file cites', inner)
    named = {place for i, place in none if re.search(r'(?<![\w-])%s(?![\w-])' % re.escape(i.name), marks)}
    figure('lemmas that nothing cites, but a page names', [place for _, place in none if place in named])
    figure('lemmas that nothing cites or names', [place for _, place in none if place not in named])


def marked(path, lines):
    """marks variables with a $: in antt names that the file neither declares nor imports, in code those that are not called"""
    antt = path.endswith('.antt')
    known = KEYWORDS | set(imports(lines)[0]) | {i.name for i in items(path, lines)} if antt else KEYWORDS
    plain = lambda b, w, a: b in ('.', '::') or not antt and a in ('::', '!', '(') or w in known or not re.match(r'[^\W\d]', w) or w[0].isupper()
    return lambda words: [w if plain(b, w, a) else '$' + w for b, w, a in zip(['', *words], words, [*words[1:], ''])]


def evened(words):
    """the words with the variables numbered in the order in which they come"""
    order = {}
    return tuple(order.setdefault(w, '$%d' % len(order)) if w[0] == '$' else w for w in words)


def depths(words):
    return list(itertools.accumulate((w in '({[') - (w in ')}]') for w in words))


def groups(words):
    """(name, type) of each name in what (a b : T) {c : U} begins with, and the words after it"""
    found = []
    while words and words[0] in '({':
        end = depths(words).index(0)
        names, colon, kind = ' '.join(words[1:end]).partition(' : ')
        if not colon or not re.fullmatch(r"[$\w' -]+", names):
            break
        found += [(name, kind.split()) for name in names.split()]
        words = words[end + 1:]
    return found, words


def statement(item, words_of):
    """the statement's words: its hypotheses one by one, each with its name only where that is used further on"""
    words = words_of(item.head)
    used, parts = set(words_of(' '.join([item.head] + item.body))), []
    for name, kind in reversed([g for given in item.given for g in groups(words_of(given))[0]]):
        if name in used:
            parts.insert(0, (name, kind))
            used |= set(kind)
    arrows = [k for k, depth in enumerate(depths(words)) if depth == 0 and words[k] == '→']
    for begin, end in zip([-1] + arrows, arrows + [len(words)]):
        bound, rest = groups(words[begin + 1:end])
        parts += bound + ([('_', rest)] if rest else [])
    words = []
    for name, kind in reversed(parts):
        words = [name if name in words else '_', ':'] + kind + [';'] + words
    return words


def equal_items(rt, antt):
    """places and first lines by statement, and by body"""
    statements, bodies = collections.defaultdict(list), collections.defaultdict(list)
    for path, lines in antt.items():
        prefix, mark = re.compile(r'(?<![\w.])(%s)\.' % ('|'.join(imports(lines)[1]) or '-')), marked(path, lines)
        for item in items(path, lines):
            words_of = lambda text: mark(['self' if w == item.name else w for w in ANTT.findall(prefix.sub('', text))])
            place = '%s %s:%d' % (item.name, path, item.line), lines[item.line - 1].strip()
            plain, body = statement(item, words_of), words_of(' '.join(item.body))
            # a lemma speaks of something; what only has a type is a definition without the word
            if item.kind == 'lemma' and any(w.lstrip('$')[0].islower() for w in words_of(item.head)):
                statements[evened(plain)] += [place] if not item.head.strip().startswith('goal.') else []
            elif len(body) > 6:
                bodies[evened([str(item.kind in ('record', 'data'))] + plain + ['='] + body)].append(place)
    for f in functions(rt):
        if len(f.body) > 2:
            bodies[evened(marked(f.path, [])(RUST.findall(' '.join(f.body))))].append(('%s %s:%d' % (f.name, f.path, f.line), rt[f.path][f.line - 1].strip()))
    return statements, bodies


def equal_runs(files, size):
    """(length, places, first line) of the runs of lines that are equal but for variables, the longest first"""
    lines = []
    for path, text in files.items():
        mark, word = marked(path, text), ANTT if path.endswith('.antt') else RUST
        for n, line in enumerate(text, 1):
            plain = code(path, line).strip()
            if plain and not re.match(r'(pub )?(ghost )?use |#\[|(pub )?mod |unfolding ', plain):
                lines.append((path, n, mark(word.findall(plain)) + ['\n'], line.strip()))
    even = lambda k, n: evened([w for line in lines[k:k + n] for w in line[2]])
    windows, found, told = collections.defaultdict(list), collections.defaultdict(set), set()
    for k in range(len(lines) - size + 1):
        shapes = {' '.join('$' if w[0] == '$' else w for w in line[2]) for line in lines[k:k + size]}
        if lines[k][0] == lines[k + size - 1][0] and sum(len(shape) > 6 for shape in shapes) > size / 2:
            windows[even(k, size)].append(k)
    pairs = {(a, b) for places in windows.values() for a in places for b in places if b - a >= size}
    for a, b in pairs:
        if (a - 1, b - 1) not in pairs:
            n = size
            while (a + n - size + 1, b + n - size + 1) in pairs and a + n < b:
                n += 1
            found[n, even(a, n)] |= {a, b}
    for (n, _), ks in sorted(found.items(), key=lambda f: (-f[0][0], min(f[1]))):
        covers = {k + i for k in ks for i in range(n)}
        if not covers <= told:
            yield n, ['%s:%d' % lines[k][:2] for k in sorted(ks)], lines[min(ks)][3]
        told |= covers


def twice(size):
    rt, antt = read(*CODE), read(*PROOFS)
    for what, alike in zip(('statements', 'bodies'), equal_items(rt, antt)):
        same = [places for places in alike.values() if len(places) > 1]
        print('== equal %s: %d' % (what, len(same)))
        for places in same:
            print('%s\n    %s' % (', '.join(place for place, _ in places), places[0][1]))
    runs = list(equal_runs({**rt, **antt, **read(*EDGE)}, size))
    print('== runs of %d or more equal lines: %d' % (size, len(runs)))
    for n, places, first in runs:
        print('%d lines: %s\n    %s' % (n, ', '.join(places), first))


def crates_table(write):
    """a row for each crate, in the order of crates.txt"""
    page = pathlib.Path('ARCHITECTURE.md')
    text = page.read_text(encoding='utf-8') if page.exists() else ''
    lines = pathlib.Path('crates.txt').read_text(encoding='utf-8').splitlines()
    deps = {line.split(':')[0]: set(line.split(':')[1].split()) for line in lines if ':' in line and line[0] != '#'}
    lower = lambda name: deps[name].union(*map(lower, deps[name]))
    below = {name: lower(name) for name in deps}
    rows = ['| crate | code | specs | proofs | edits | crates above it |', '|---|--:|--:|--:|--:|--:|']
    for name in below:
        size = lambda kind, end: sum(map(len, read('crates/%s/%s/**/*.%s' % (name, kind, end)).values()))
        sizes = size('src', 'rt'), size('specs', 'antt'), size('proofs', 'antt'), len(read('crates/%s/must-fail/*.edit' % name))
        rows.append('| `%s` | %s |' % (name, ' | '.join(map(str, [*sizes, sum(name in b for b in below.values())]))))
    if write:
        page.write_text(re.sub(r'(?:^\| .*\n)?^\|---\|--:(?:.*\n)(?:^\|.*\n)*', lambda m: '\n'.join(rows) + '\n', text, flags=re.M), encoding='utf-8')
    else:
        print('\n'.join(rows))


def pages():
    """by page and line: `a/b.antt` that is no file, `crate::f` that is no function or type, `.x` that is no clause in its row's crates, and `crate/edit` that is no edit"""
    rt, edits = read(*CODE), {p.replace('crates/', '').replace('must-fail/', '')[:-5] for p in read('crates/*/must-fail/*.edit')}
    files = [f for top in ('*', 'crates/*/s*/**', 'crates/*/proofs/**', 'rust/*/[st]*/**', '*/*', '*/src/*') for f in glob.glob(top, recursive=True)]
    crates = {p.split('/')[1] for p in rt}
    whole = {crate: '\n'.join('\n'.join(text) for p, text in rt.items() if p.split('/')[1] == crate) for crate in crates}
    for page in ('README.md', 'ARCHITECTURE.md', 'CONTRIBUTING.md', 'docs/TRACE.md', 'docs/DECISIONS.md', 'docs/DIFFERENCES.md'):
        for n, line in enumerate(read(page).get(page, []), 1):
            for mark in re.findall('`([^`]+)`', line):
                path, way = re.fullmatch(r'[\w./-]+\.(antt|rt|rs|c|h|md|py|svg)', mark), re.fullmatch(r'(\w+)(?:::\w+)*::(\w+)', mark)
                edit, clause = re.fullmatch(r'([a-z_0-9]+)/([a-z_0-9]+)', mark), re.fullmatch(r'\.(\w+)', mark)
                if path and not re.search('^target/|/F/', mark) and not any(('/' + file).endswith('/' + mark) for file in files):
                    print('%s:%d: no file %s' % (page, n, mark))
                elif way and way.group(1) in crates and not re.search(r'\b(fn|struct|enum|const|mod) %s\b' % way.group(2), whole[way.group(1)]):
                    print('%s:%d: nothing is %s' % (page, n, mark))
                elif clause and not any(re.search(r'\bensures %s \{' % clause.group(1), whole.get(crate, '')) for crate in re.findall(r'`(\w+)::', line)):
                    print('%s:%d: no clause is %s' % (page, n, mark))
                elif edit and edit.group(1) in crates and mark not in edits and not os.path.isdir('crates/' + mark):
                    print('%s:%d: no edit %s' % (page, n, mark))


def main():
    words = [w for w in sys.argv[1:] if w not in ('--figures', '--lines', '--write')]
    size = int(words.pop(1)) if '--lines' in sys.argv else 6
    if not words or words[0] not in ('counts', 'twice', 'crates', 'pages') or len(words) > 2:
        sys.exit(__doc__)
    os.chdir(words[1] if len(words) == 2 else os.path.join(os.path.dirname(os.path.abspath(__file__)), '..'))
    does = {'counts': lambda: counts('--figures' in sys.argv), 'twice': lambda: twice(size), 'crates': lambda: crates_table('--write' in sys.argv), 'pages': pages}
    does[words[0]]()


if __name__ == '__main__':
    main()
