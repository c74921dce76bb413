"""Reading the repository: its crates, Rattle's public functions with their contracts, antt's declarations with their text."""

import re
from dataclasses import dataclass, field
from pathlib import Path

# Comments and quoted text, in which a brace or a keyword means nothing.
QUOTED = r'"(?:\\.|[^"\\])*"'
CODE_SKIPPED = rf'//[^\n]*|/\*.*?\*/|{QUOTED}|b\'(?:\\.|[^\'\\])\''
ANTT_SKIPPED = rf'(?<!\S)--[^\n]*|\{{-.*?-\}}|{QUOTED}'

# A type of arrays, up to five deep, in which a semicolon ends nothing.
ARRAY = r'\[[^\[\]]*\]'
for _ in range(4):
    ARRAY = rf'\[(?:[^\[\]]|{ARRAY})*\]'

CODE_BRACES = re.compile(CODE_SKIPPED + r'|[{}]', re.S)
ANTT_BRACES = re.compile(ANTT_SKIPPED + r'|[{}]', re.S)
ITEM = re.compile(
    CODE_SKIPPED
    + r'|\bghost\s+use\b[^;]*;'
    + r'|(?P<pub>\bpub\s+)?(?:\bextern\s+"C"\s+)?\bfn\s+(?P<fn>\w+)'
    + r'|(?P<shown>\bpub\s+)?\b(?:struct|enum)\s+(?P<type>\w+)'
    + r'|\bimpl\b\s*(?:<(?P<parameters>[^>]*)>\s*)?(?P<impl>(?:' + ARRAY + r'|[^{;\[])*?)\s*(?:\bwhere\b[^{]*)?\{'
    + r'|(?P<open>\bpub\s+)?\btrait\s+(?P<trait>\w+)[^{]*\{'
    + r'|\bmod\s+(?P<mod>\w+)\s*\{'
    + r'|(?P<brace>[{}])',
    re.S)
CLAUSE_OR_BODY = re.compile(
    CODE_SKIPPED + '|' + ARRAY
    + r'|\b(?P<clause>ghost|requires|ensures)\b\*?\s*\w*\s*:?\s*\{|(?P<body>\{)|(?P<none>;)', re.S)
MEMBER = re.compile(CODE_SKIPPED + r'|\bghost\s+(?P<name>\w+)\s*=\s*\{', re.S)
CODE_COMMENT = re.compile(r'//[^\n]*|/\*.*?\*/', re.S)

USE = re.compile(r'^(?:pub |ghost )?use\s+([^\s;{]+?)(?:\.\{([^}]*)\}|\s+as\s+(\S+?))?;?[ \t]*$', re.M)
MARKS = ('unfoldable', 'abbrev', 'axiom', 'pub')
SIGNATURE = re.compile(r'(?P<marks>(?:(?:unfoldable|abbrev|axiom|pub)\s+)*)(?P<name>[^\s:]+)(?:\s*\{[^}]*\})*\s+:(?=\s)')
BLOCK = re.compile(r'(?P<marks>(?:(?:unfoldable|abbrev|axiom|pub)\s+)*)(?P<word>data|record|mutual|module|use|mod|ruleset)(?!\S)\s*(?P<name>[^\s:]*)')
TOKEN = re.compile(r'[^\s(){}\[\],;]+')
BRACKETS = re.compile(r'\s*([(){}\[\],;])\s*')


# ---- the repository

def read(file):
    return file.read_text(encoding='utf-8') if file.is_file() else ''


def line_at(text, position):
    return text.count('\n', 0, position) + 1


def crate_folders(root):
    return sorted(folder for folder in root.glob('crates/*') if folder.is_dir())


def listed_crates(root):
    """Yields (line, name, the line above) of each crate in crates.txt."""
    above = ''
    for number, line in enumerate(read(root / 'crates.txt').splitlines(), 1):
        name = line.split('#')[0].split(':')[0].split()
        if name:
            yield number, name[0], above
        above = line


# ---- text

def normal(text):
    """A text whose spacing says nothing: one space between words, none at a bracket. What is quoted stays as it is."""
    quoted = iter(re.findall(QUOTED, text))
    return re.sub('""', lambda _: next(quoted), BRACKETS.sub(r'\1', ' '.join(re.sub(QUOTED, '""', text).split())))


def tokens(text):
    """The names in a text; of `handing.Listed` the parts too, of `s.fifo` and `(f s).fifo` not the field."""
    found = {token for token in TOKEN.findall(text) if not token.startswith('.')}
    for token in list(found):
        head, *rest = token.split('.')
        found |= {part for part in [head, *rest] if part and (part is head or not part[0].islower())}
    return found


def imports(text):
    """What the `use` lines of a file bring: the module and name behind each token by which the file calls it."""
    brought = {}
    for module, items, alias in USE.findall(text):
        if alias:
            brought[alias] = module
        for item in items.split(','):
            name, _, renamed = (part.strip() for part in item.partition(' as '))
            if name:
                brought[(renamed or name).strip('◌')] = f'{module}.{name}'
    return brought


# ---- Rattle

@dataclass
class Function:
    """A `pub fn`, or an `impl` of a trait: its path within the crate, and its text up to the body, without comments."""
    line: int
    path: list
    text: str
    clauses: list = field(default_factory=list)  # (kind, what stands in the braces)


def closing(text, opening, braces):
    """The position behind the brace that closes the one at `opening`."""
    depth = 0
    for found in braces.finditer(text, opening):
        depth += {'{': 1, '}': -1}.get(found.group(), 0)
        if depth == 0 and found.group() == '}':
            return found.end()
    return len(text)


def clauses_and_body(text, position):
    """The clauses behind a function's name, as (kind, text), and where its body begins and ends."""
    clauses = []
    while True:
        found = CLAUSE_OR_BODY.search(text, position)
        if not found:
            return clauses, len(text), len(text)
        if found['body']:
            return clauses, found.start(), closing(text, found.start(), CODE_BRACES)
        if found['none']:
            return clauses, found.start(), found.end()
        position = found.end()
        if found['clause']:
            position = closing(text, found.end() - 1, ANTT_BRACES)
            clauses.append((found['clause'], without_comments(text[found.end():position - 1]).strip()))


def implemented(head):
    """The trait, if there is one, and the type of an `impl`, by what stands behind the word."""
    *of, type_ = re.split(r'\sfor\s', head, maxsplit=1)
    return re.sub(r'^(?:\w+::)+', '', ''.join(''.join(of).split())), ''.join(type_.split())


def joined(name, parameters):
    """How `rt` calls the `impl` of a type or a trait: the names in it, but lifetimes and the `impl`'s own parameters, as one word."""
    own = set(re.findall(r"(?:^|,)\s*(?:const\s+)?(\w+)", parameters or ''))
    return ''.join(word[0].upper() + word[1:] for word in re.findall(r"(?<!')\b\w+\b(?!::)", name) if word not in own)


def members(text, start):
    """The ghost members of an `impl`, as clauses, and where the last one ends. A clause of a method of its own is one of kind 'method'."""
    clauses, ends = [], start
    stop = closing(text, text.rindex('{', 0, start), CODE_BRACES)
    for found in MEMBER.finditer(text, start, stop):
        if found['name']:
            ends = closing(text, found.end() - 1, ANTT_BRACES)
            clauses.append(('ensures', without_comments(text[found.end():ends - 1]).strip()))
    methods = re.sub(CODE_SKIPPED, ' ', text[ends:stop], flags=re.S)
    return clauses + [('method', word) for word in re.findall(r'\b(?:requires|ensures)\b', methods)], ends


def every_item(text):
    """Yields (kind, whether it is `pub`, path, (start, body, end), clauses) of each function, struct and enum, in order, and of each `impl` of
    a trait; kind is 'fn', 'type' or 'impl'. What a trait's `impl` promises is its ghost members. A trait's own functions are as `pub` as it
    is. What is declared inside a function is passed over."""
    around, shown, position = [], [False], 0
    while True:
        found = ITEM.search(text, position)
        if not found:
            return
        position = found.end()
        if found['fn']:
            clauses, body, position = clauses_and_body(text, position)
            yield 'fn', bool(found['pub']) or shown[-1], around + [found['fn']], (found.start(), body, position), clauses
        elif found['type']:
            opening = re.compile(r'[{;]').search(text, position)
            if opening:
                position = closing(text, opening.start(), CODE_BRACES) if opening.group() == '{' else opening.end()
            yield 'type', bool(found['shown']), around + [found['type']], (found.start(), position, position), []
        elif found['impl']:
            of, type_ = implemented(found['impl'])
            if of:
                clauses, ends = members(text, found.end())
                yield 'impl', True, around + [type_, of], (found.start(), ends, ends), clauses
            around.append(joined(type_, found['parameters']) + joined(of, found['parameters']))
            shown.append(False)
        elif found['trait'] or found['mod']:
            around.append(found['trait'] or found['mod'])
            shown.append(bool(found['open']))
        elif found['brace'] == '{':
            position = closing(text, found.start(), CODE_BRACES)
        elif found['brace'] == '}' and around:
            around.pop()
            shown.pop()


def function_at(text, line):
    """The path of the function of a file of code to which a line belongs: the first that ends there or below, since its attributes stand
    above it."""
    return next((path for kind, _, path, (_, _, end), _ in every_item(text) if kind == 'fn' and line <= line_at(text, end)), [])


def public_items(text, kind):
    """The `pub` functions or types of a file of code, or its `impl`s of traits."""
    for found, is_pub, path, (start, body, _), clauses in every_item(text):
        if found == kind and is_pub:
            yield Function(line_at(text, start), path, CODE_COMMENT.sub(' ', text[start:body]), clauses)


def code_files(root):
    """Yields (crate, file, the modules that the file is) of all code."""
    for crate in crate_folders(root):
        for file in sorted(crate.glob('src/**/*.rt')):
            module = file.relative_to(crate / 'src').with_suffix('').parts
            yield crate.name, file, [] if module in (('lib',), ('main',)) else list(module)


def public_calls(root):
    """Yields (file, name, function) of each `pub fn` of the repository, its name as `crate::Type::name`."""
    for crate, file, module in code_files(root):
        for function in public_items(read(file), 'fn'):
            yield file, '::'.join([crate, *module, *function.path]), function


def own_traits(root):
    """The names of the traits that the repository declares."""
    return {name for _, file, _ in code_files(root) for name in re.findall(r'\btrait\s+(\w+)', CODE_COMMENT.sub(blank, read(file)))}


def public_impls(root):
    """Yields (file, name, impl) of each trait that a library has for a type, its name as `crate::Type::Trait`. How contracts see a value of
    a type, its `Model`, is no call."""
    for crate, file, module in code_files(root):
        if (root / 'crates' / crate / 'src' / 'lib.rt').is_file():
            for each in public_items(read(file), 'impl'):
                if each.path[-1] != 'Model':
                    yield file, '::'.join([crate, *module, *each.path]), each


# ---- antt

@dataclass
class Declaration:
    """A declaration of antt: `word` is data or record, or nothing where it has a signature and clauses."""
    line: int
    name: str
    marks: list
    word: str
    signature: str
    clauses: str
    around: list  # the heads of the sections that it stands in

    def statement(self):
        return normal(' '.join([*self.around, self.signature]))

    def whole(self):
        return normal(' '.join([*self.around, self.signature, self.clauses]))

    def is_theorem(self):
        return self.marks == ['pub'] and not self.word

    def is_definition(self):
        return bool(self.word) or 'abbrev' in self.marks or 'unfoldable' in self.marks


def blank(skipped):
    return re.sub(r'[^\n]', ' ', skipped.group())


def without_comments(text):
    """A text with blanks for its comments; what is quoted is no comment, whatever stands in it."""
    return re.sub(ANTT_SKIPPED, lambda found: found.group() if re.match(QUOTED, found.group()) else blank(found), text, flags=re.S)


def items_of(lines):
    """Parts (number, line) pairs into items: a line of the least indent, with the deeper ones that follow it."""
    filled = [(number, line) for number, line in lines if line.strip()]
    if not filled:
        return
    least = min(len(line) - len(line.lstrip()) for _, line in filled)
    item = []
    for number, line in filled:
        if item and len(line) - len(line.lstrip()) == least:
            yield item
            item = []
        item.append((number, line))
    yield item


def head_and_block(item):
    """The head of a section up to its `where`, and the lines below."""
    for place, (_, line) in enumerate(item):
        if line.split()[-1] == 'where':
            return ' '.join(text.strip() for _, text in item[:place + 1]), item[place + 1:]
    return ' '.join(text.strip() for _, text in item), []


def declarations_in(lines, around, inherited):
    last = None
    for item in items_of(lines):
        text = '\n'.join(line for _, line in item)
        block = BLOCK.match(text.strip())
        named = SIGNATURE.match(text.strip())
        if block and block['word'] in ('module', 'mutual'):
            head, below = head_and_block(item) if block['word'] == 'module' else ('', item[1:])
            marks = block['marks'].split() if block['word'] == 'mutual' else []
            yield from declarations_in(below, around + [head] if head else around, inherited + marks)
        elif block and block['word'] in ('data', 'record'):
            yield Declaration(item[0][0], block['name'], inherited + block['marks'].split(), block['word'], text, '', around)
        elif block and block['word'] in ('use', 'mod', 'ruleset'):
            continue
        elif named:
            last = Declaration(item[0][0], named['name'], inherited + named['marks'].split(), '', text, '', around)
            yield last
        elif last and not text.strip().startswith('unfolding '):
            last.clauses += '\n' + text


def declarations(text):
    """Every declaration of a file of antt, those in sections too; not the fields of records, nor what stands under a `where`."""
    return list(declarations_in(list(enumerate(without_comments(text).split('\n'), 1)), [], []))


def theorem_files(root):
    """The files whose public statements are promises: laws, for citing, are none."""
    return [file for file in sorted(root.glob('crates/*/proofs/*.antt')) if not file.name.startswith('Laws')]


def definition_files(root):
    return sorted(root.glob('crates/*/specs/**/*.antt'))
