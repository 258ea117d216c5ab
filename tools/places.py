"""Lists the places that a design pass looks at: python3 tools/places.py [POINT..], at the top of the repository.

Each point has patterns for the sources (crates/*/src), crates of tests apart. A line that is printed is a place to read, not yet a fault."""
import collections
import glob
import re
import sys

# Patterns go over whole files, so that they may span lines.
PATTERNS = {
    1: [
        ('an own enum', r'^(?:pub )?enum \w+'),
        ('a flag in a struct', r'^    (?:pub(?:\([a-z]+\))? )?\w+: bool,'),
        ('an error passed on by hand', r'Err\((\w+)\) => (?:return )?(?:Err\((?:\w+::)*\w*\(?\1|refuse\((?:rt, )?\1)'),
        ('an error passed on by hand', r'if let Err\((\w+)\) = [^;]*?\{\s*return (?:Err\(\1|refuse\(\1)'),
        ('an error given up by hand', r'Err\(_\) => (?!unreachable)[^{\n]*,'),
        ('a refusal wrapped by hand', r'Err\((?:fault|Declined \{ fault, slip \})\) => \(?\w+(?:\(\w+\))?(?:, Answer| \{)'),
        ('a None passed on by hand', r'None => (?:None|Err\([^\n]*\)),'),
        ('a None passed on by hand', r'let (?:Some|Ok)\([^=]*\) = [^;{]*? else \{\s*return[^;]*;'),
        ('an error tested by hand', r'if let Err\(_\) = '),
        ('a number for a kind of line', r"const \w+: u8 = b'|put_line\(b'|read_line\(\w+, b'|kind: u8|a: u8, b: u8,"),
        ('a number for none', r'LONGEST \+ 1$|d == 16|return i;\n        \}\n    \}|quads \+ points$'),
        ('a number that says nothing', r'fn \w+(?:<[^>]*>)?\(\) -> u8'),
        ('a refusal in numbers', r'^    pub number: u32,'),
        ('numbers for requests and answers', r'fn \w+\([^)]*\[u32; [36]\][^)]*\)'),
    ],
    3: [
        ('a loop by numbers', r'^ *for \w+ in [^{\n]*\.\.[^{\n]*\{'),
        ('a loop with a count beside it', r'^ *for \(\w+, \w+\) in [^{\n]*enumerate\(\)[^{\n]*\{'),
        ('a loop without a for', r'^ *(?:loop|while)\b[^{\n]*\{'),
        ('a count in a loop', r'^ +\w+ \+= 1;'),
    ],
    4: [
        ('a conversion by hand', r'fn (?:from_\w+|word|of|request_of|numbers|fault|number|place|make|to_row|new)\((?!&mut)[^)]*\) -> [^\n]+'),
        ('a struct of zeros by hand', r'\{\s*(?:\w+: (?:0|false),\s*){3,}\}'),
        ('a trait of std by hand', r'^impl(?:<[^>]*>)? (?:fmt::)?(?:Display|From<[^{]*>|TryFrom<[^{]*>|PartialEq|Eq|Ord|PartialOrd|Clone|Default|Hash|Drop) for [^{\n]+'),
    ],
    6: [
        ('a buffer with a place beside it', r'out: &mut \[u8\], at: usize'),
        ('a buffer with a count beside it', r'let mut \w+ = \[0u8; \w+\];'),
        ('indices into a store', r'store: &(?:\'\w+ )?\[u32\]|^pub struct Extent'),
        ('a fixed table', r'let mut \w+ = \[0u32; [^\]]*\];'),
    ],
    7: [
        ('a switch on what to do', r'match (?:request|kind|over|level|self\.stage) \{'),
    ],
}


def sources(tests=False):
    for path in sorted(glob.glob('crates/*/src/**/*.rt', recursive=True)):
        crate = path.split('/')[1]
        if (crate.endswith('_tests')) == tests:
            text = open(path).read()
            yield path, text if tests else text.split('#[cfg(test)]')[0]


def lines(point):
    for path, text in sources():
        for what, pattern in PATTERNS[point]:
            for m in re.finditer(pattern, text, re.M):
                number = text.count('\n', 0, m.start()) + 1
                yield what, f'{path}:{number}: {" ".join(m.group(0).split())}'


FUNCTION = re.compile(r'\bfn (\w+)(?:<[^>]*>)?\(([^{]*?)\)\s*(?:->[^\n{]*)?\n((?:\s+(?:requires|ensures)[^\n]*\n)*)')


def functions():
    for path, text in sources():
        for m in FUNCTION.finditer(text):
            yield path.split('/')[1] + '::' + m.group(1), m


# Point 2: functions of one name in two places.
def twins():
    where = collections.defaultdict(list)
    for path, text in sources():
        for m in re.finditer(r'^ *(?:pub(?:\([a-z]+\))? )?(?:extern "C" )?fn (\w+)', text, re.M):
            where[m.group(1)].append(path)
    for name, paths in sorted(where.items()):
        if len(paths) > 1:
            yield 'a name that stands twice', f'{name}: {", ".join(paths)}'


# Point 5: facts that three or more contracts ask for, and parameters that three or more functions take together.
def together():
    asked = collections.defaultdict(list)
    taken = collections.defaultdict(set)
    for name, m in functions():
        for clause in re.findall(r'requires\s*\w*\s*\{(.*)\}', m.group(3)):
            asked[clause.strip()].append(name)
        names = [p.split(':')[0].strip() for p in m.group(2).split(',') if ':' in p]
        taken[frozenset(names)].add(name)
    for clause, names in asked.items():
        if len(names) > 2:
            yield 'a fact in three contracts', f'{len(names)}: {clause}: {", ".join(names)}'
    groups = collections.defaultdict(set)
    sets = list(taken)
    for a in sets:
        for b in sets:
            both = a & b
            if len(both) > 1:
                for s in (a, b):
                    groups[both] |= taken[s]
            if a == b and len(a) > 1:
                groups[a] |= taken[a]
    shown = []
    for both, names in sorted(groups.items(), key=lambda g: (-len(g[0]), sorted(g[0]))):
        if len(names) > 2 and not any(both <= more and names <= also for more, also in shown):
            shown.append((both, names))
            yield 'parameters together', f'{len(names)}: {", ".join(sorted(both))}: {", ".join(sorted(names))}'


# Point 8: lines of proofs, by crate.
def proofs():
    for crate in sorted(glob.glob('crates/*')):
        count = sum(len(open(p).readlines()) for p in glob.glob(crate + '/proofs/**/*.antt', recursive=True))
        if count:
            yield 'lines of proofs', f'{crate}: {count}'


def main():
    points = [int(p) for p in sys.argv[1:]] or range(1, 9)
    own = {2: twins, 5: together, 8: proofs}
    for point in points:
        found = list(own[point]() if point in own else lines(point))
        print(f'point {point}: {len(found)}')
        for what, line in sorted(found):
            print(f'  {what}: {line}')


main()
