"""The items of crates, the definitions of specs/ and the promises, structs, enums and constants of src/, and which is which of two trees.
For tools/moved.

An item is a list of words without comments and layout, and each word may refer to an item or to what a library has, as the `use` lines of
its file say. So words can be compared by what they refer to: after `use Rattle.NAME.specs.Ring.{place as place_of}` the word place_of
refers to place of crates/NAME/specs/Ring.antt.
"""
import collections, re

import crates

# kind: definition, promise, type or page. words: each with what it refers to, or None.
Item = collections.namedtuple('Item', 'kind path name words')
# What a word refers to: the item of this name in this file of crates/, or of this module of a library, and the variant of it, or ''.
Referred = collections.namedtuple('Referred', 'path name variant')

LITERAL = r"""b?"(?:\\.|[^"\\])*"|b'(?:\\.|[^'\\])'"""
WORD = {
    '.antt': re.compile(LITERAL + r'|\[\]|\.?[^\s(){}\[\];,."]+|\S'),
    '.rt': re.compile(LITERAL + r'|\w+(?:::\w+)+|->|\.?[^\s(){}\[\];,.":&<>]+|\S'),
}
COMMENT = {'.antt': re.compile('(%s)|--[^\n]*' % LITERAL), '.rt': re.compile('(%s)|//[^\n]*' % LITERAL)}
NAME = r'(?!=\s)[^\s(){};,.:]+'
SIGNATURE = re.compile(r'(?:(?:unfoldable|abbrev|pub)\s+)*((?:%s\s+)+):\s' % NAME)
BLOCK = re.compile(r'(?:pub\s+)?(?:record|data)\s+(\S+)')
NO_ITEM = re.compile(r'(?:pub\s+)?(?:use|mod)\s')
USE = re.compile(r'^ *(?:ghost |pub )*use ([^;{\n]+?)(?:\.\{([^}]*)\})?;?\s*$', re.M)
RUST_USE = re.compile(r'^(?:pub )?use (\w+(?:::\w+)*)(?:::\{([^}]*)\})?;', re.M)
CONTRACT = ('ghost', 'requires', 'ensures', 'requires*', 'ensures*')
KINDS = {'fn': 'promise', 'struct': 'type', 'enum': 'type', 'const': 'type'}


def ending(path):
    return path[path.rindex('.'):]


def without_comments(path, text):
    return COMMENT[ending(path)].sub(lambda match: match.group(1) or '', text)


def words(path, text):
    """The words of a text, without comments, and without a separator before a closing bracket, which is layout."""
    found = WORD[ending(path)].findall(without_comments(path, text))
    return [word for word, after in zip(found, found[1:] + ['']) if not (word in (',', ';') and after in (')', ']', '}'))]


def items(files):
    """The items of all files, by path and name."""
    found, ours = {}, own(files)
    for part, split in (('specs', definitions), ('code', declarations)):
        for path in crates.part(files, part):
            here = list(split(path, files[path]))
            meant = {word: Referred(path, name, '') for _, name, _ in here for word in written(name.split('::')[-1])}
            meant.update(brought_in(path, files[path], ours))
            for kind, name, said in here:
                found[path, name] = Item(kind, path, name, with_references(said, path, meant))
    return found


def pages(files):
    """Each proof file as one item without a name. What its `use` lines bring in is known by the words that refer to it."""
    found, ours = {}, own(files)
    for path in crates.part(files, 'proofs'):
        said = words(path, USE.sub('', files[path]))
        found[path, ''] = Item('page', path, '', with_references(said, path, brought_in(path, files[path], ours)))
    return found


def own(files):
    """The crates that are no library's."""
    return {crates.crate_of(path) for path in files if path.startswith('crates/')}


def definitions(path, text):
    """Signatures with their clauses, records and data. Each begins at the margin; what is no beginning belongs to the last one."""
    found, names = {}, []
    for piece in re.split(r'\n(?=\S)', without_comments(path, text)):
        said = words(path, piece)
        block, signature = BLOCK.match(piece), SIGNATURE.match(piece)
        if NO_ITEM.match(piece) or not said:
            names = []
        elif block or signature:
            names = [block.group(1)] if block else signature.group(1).split()
            found.update((name, list(said)) for name in names)
        elif names:
            found[said[0] if said[0] in names else names[-1]] += said
    return [('definition', name, said) for name, said in found.items()]


def declarations(path, text):
    """Functions up to their bodies, structs, enums and constants; those of an impl block with its name before theirs."""
    said = words(path, text)
    begin, at, owner = 0, 0, ''
    while at < len(said):
        word = said[at]
        if word in KINDS:
            end, after = extent(said, at)
            begin += word == 'fn' and said[begin] == 'pub'      # who may call a function is no promise
            yield KINDS[word], owner + said[at + 1], said[begin:end]
            begin = at = after
        elif word == 'impl':
            begin = at = said.index('{', at) + 1
            owner = said[at - 2] + '::'
        elif word in ('#', '#!') and said[at + 2:at + 3] == ['tactic']:
            del said[at:closed(said, at + 1)]       # how a proof is looked for is no promise
        elif word in ('(', '[', '{'):
            at = closed(said, at)
        else:
            at += 1
            if word in (';', '}'):
                begin = at
            if word == '}':
                owner = ''


def extent(said, at):
    """Where an item that begins here ends, and where what follows it begins: a function's body is not the item's."""
    function = said[at] == 'fn'
    while at < len(said) and said[at] not in (';', '}'):
        if said[at] == '{':
            after = closed(said, at)
            return (at, after) if function else (after, after)
        if said[at] in CONTRACT:
            at = closed(said, said.index('{', at))
        else:
            at = closed(said, at) if said[at] in ('(', '[') else at + 1
    return at, at + 1


def closed(said, at):
    """The place after the bracket that closes the one here."""
    depth = 0
    while True:
        depth += (said[at] in ('(', '[', '{')) - (said[at] in (')', ']', '}'))
        at += 1
        if depth == 0:
            return at


def brought_in(path, text, ours):
    """What the `use` lines of a file bring in: the word, and what it refers to."""
    meant = {}
    for use in USE.finditer(text):
        module, _, alias = use.group(1).partition(' as ')
        if use.group(2) is None:
            if alias:
                meant[alias] = of_module(module, '', ours)
            continue
        for name, alias in listed(use.group(2)):
            meant.update((word, of_module(module, name, ours)) for word in written(alias))
    for use in RUST_USE.finditer(text):
        steps = use.group(1).split('::')
        if use.group(2) is None:
            meant[steps[-1]] = of_steps(path, steps)
            continue
        for name, alias in listed(use.group(2)):
            meant[alias] = of_steps(path, [*steps, name])
    return meant


def listed(items):
    """The names of a `use` line's list, each with the word that it is brought in as."""
    for item in filter(None, map(str.strip, items.split(','))):
        name, _, alias = item.partition(' as ')
        yield name, alias or name


def written(name):
    """The words that a name is written as: `◌≡◌` also as `≡`."""
    return [name] + ([part for part in name.split('◌') if part] if '◌' in name else [])


def of_module(module, name, ours):
    """What a name of a module of specs/ or of a library refers to; of proofs/ nothing is told. The types of src/ stand under `declared`,
    each with its variants."""
    steps = module.split('.')
    if steps[0] != 'Rattle' or steps[1] not in ours:
        return Referred(module, name, '')
    crate, steps = steps[1], steps[3:] if steps[2:3] == ['specs'] else []
    if not steps:
        return None
    if steps[0] != 'declared':
        return Referred('crates/%s/specs/%s.antt' % (crate, '/'.join(steps)), name, '')
    variant = ''
    if steps[-1] == 'TheVariants':
        variant = name
        steps.pop()
    return Referred('crates/%s/src/%s.rt' % (crate, '/'.join(steps[1:-1]) or 'lib'), steps[-1], variant)


def of_steps(path, steps):
    """What a path of src/ refers to, such as NAME::Type or crate::module::Type."""
    crate = crates.crate_of(path) if steps[0] == 'crate' else steps[0]
    return Referred('crates/%s/src/%s.rt' % (crate, '/'.join(steps[1:-1]) or 'lib'), steps[-1], '')


def with_references(said, path, meant):
    """Each word with what it refers to. One that follows the name of a module is of this module."""
    found, last = [], None
    for word in said:
        steps = word.split('::')
        if word.startswith('.') and last and not last.name:
            last = Referred(last.path, word[1:], '')
        elif len(steps) > 1 and steps[0] not in meant:
            last = of_steps(path, steps)
        else:
            last = meant.get(word)
        found.append((word, last))
    return found


# Which item of two trees is which: the first rule that groups them together decides. A group is of one kind and has the same path, crate or
# name; with True the texts have to be the same too, but for names. A rule holds where nothing else of the group could be meant.
RULES = (
    (lambda path, name: (path, name), False),
    (lambda path, name: name, True),
    (lambda path, name: (crates.crate_of(path), name), False),
    (lambda path, name: name, False),
    (lambda path, name: path, True),
    (lambda path, name: crates.crate_of(path), True),
)
ROUNDS = 10


class Matched:
    """The items and pages of two trees, old and new, by path and name. pairs: the new key of each old item that is there still."""

    def __init__(self, old, new, where):
        """Old files are now where it is said, or nowhere. An item may mention one that is found to be renamed, so all are gone through
        until nothing is found anew."""
        self.old, self.new, self.pairs = items(old), items(new), {}
        for _ in range(ROUNDS):
            found = self.found(where)
            if found == self.pairs:
                break
            self.pairs = found
        self.old.update(pages(old))
        self.new.update(pages(new))

    def found(self, where):
        found = {}
        for rule, by_text in RULES:
            groups = collections.defaultdict(lambda: ([], []))
            for (path, name), item in self.old.items():
                if (path, name) not in found:
                    groups[item.kind, rule(where[path] or path, name)][0].append((path, name))
            taken = set(found.values())
            for (path, name), item in self.new.items():
                if (path, name) not in taken:
                    groups[item.kind, rule(path, name)][1].append((path, name))
            for olds, news in groups.values():
                found.update(only_ones([(key, to) for key in olds for to in news if not by_text or self.same(key, to)]))
        return found

    def same(self, key, to):
        """Whether the texts of an old item and a new one are the same, but for names of the same item."""
        return len(self.old[key].words) == len(self.new[to].words) and all(
            word == now or meant and meant == means for word, meant, now, means in self.side_by_side(key, to))

    def redirected(self, key, to):
        """The words that stand in both and refer to something else than before, with what they referred to and refer to."""
        return {(word, meant, means) for word, meant, now, means in self.side_by_side(key, to)
                if word == now and meant and means and meant != means}

    def side_by_side(self, key, to):
        """Each word of an old item and what it means, told by the new keys, and the same of a new item."""
        for (word, referred), (now, refers_now) in zip(self.old[key].words, self.new[to].words):
            meant = meaning(referred, self.old)
            if meant:
                meant = Referred(*(to if meant[:2] == key else self.pairs.get(meant[:2], meant[:2])), meant.variant)
            yield word, meant, now, meaning(refers_now, self.new)


def meaning(referred, there):
    """What is referred to, if it is an item that is there, or a library's."""
    return referred if referred and (referred[:2] in there or not referred.path.startswith('crates/')) else None


def only_ones(edges):
    first, second = collections.Counter(key for key, _ in edges), collections.Counter(to for _, to in edges)
    return [(key, to) for key, to in edges if first[key] == second[to] == 1]
