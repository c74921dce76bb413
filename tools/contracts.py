"""The contract of a public function as equations: what it returns, and what each lent memory holds in the end."""

import re

import sources
from statements import file_of_module

PARAMETER = re.compile(r"\b(\w+)\s*:\s*&\s*(?:'\w+\s+)?mut\b")
RESULT = re.compile(r'->\s*(?P<lent>&)?')
OPENS, CLOSES = '({[', ')}]'


def parted(text, symbol):
    """The parts of a text between the symbols that stand in no bracket."""
    parts, depth, begins = [], 0, 0
    for found in sources.TOKEN.finditer(text):
        depth = nested(text[:found.start()])
        if depth == 0 and found.group() == symbol:
            parts.append(text[begins:found.start()].strip())
            begins = found.end()
    return parts + [text[begins:].strip()]


def nested(text):
    """How many brackets a text leaves open."""
    return sum(text.count(mark) for mark in OPENS) - sum(text.count(mark) for mark in CLOSES)


def unwrapped(text):
    """A text without the brackets around the whole of it."""
    while text.startswith('(') and all(nested(text[:place]) > 0 for place in range(1, len(text))) and text.endswith(')'):
        text = text[1:-1].strip()
    return text


def atoms(text):
    """The words and bracketed groups of a text, in order."""
    found, place = [], 0
    while place < len(text):
        if text[place].isspace():
            place += 1
            continue
        ends = place + 1
        if text[place] in OPENS:
            while nested(text[place:ends]) > 0 and ends < len(text):
                ends += 1
        else:
            while ends < len(text) and not text[ends].isspace() and text[ends] not in OPENS + CLOSES:
                ends += 1
        found.append(text[place:ends])
        place = ends
    return found


def substituted(text, values):
    """A text with values for its names, all at once."""
    return re.sub(sources.TOKEN, lambda found: values.get(found.group(), found.group()), text)


def of_clauses(declaration):
    """The names that an abbreviation takes, and what it stands for."""
    left, _, right = declaration.clauses.strip().partition(' =')
    return left.split()[1:], [sources.normal(right)]


def of_record(declaration):
    """The names that a record takes, and the types of its fields."""
    head, _, block = declaration.signature.partition(' where')
    names = [name for group in re.findall(r'\(([^:()]*):', head) for name in group.split()]
    fields = [re.split(r'\s:\s', ' '.join(line.strip() for _, line in item), maxsplit=1)[1]
              for item in sources.items_of(list(enumerate(block.split('\n')))[1:])]
    return names, [sources.normal(each) for each in fields]


def facts(text, file, reader):
    """The facts that a clause joins, those of an abbreviation or a record in its place."""
    for part in parted(unwrapped(text), '×'):
        part = unwrapped(part)
        if len(parted(part, '×')) > 1:
            yield from facts(part, file, reader)
            continue
        head, *given = atoms(part)
        own, brought = reader(file)
        there = (file, head) if head in own else file_of_module(brought.get(head, ''))
        declared = reader(there[0])[0].get(there[1]) if there and len(parted(part, '≡')) == 1 else None
        if not declared or not declared.is_definition():
            yield part
            continue
        names, stands_for = of_record(declared) if declared.word else of_clauses(declared)
        for each in stands_for:
            yield from facts(substituted(each, dict(zip(names, given))), there[0], reader)


def equations(function, file, reader):
    """The equations of a contract by their left sides, and the facts that are none. `reader` gives a file's declarations and imports."""
    equal, others = {}, []
    for kind, clause in function.clauses:
        if kind != 'ensures':
            continue
        for fact in facts(sources.normal(clause).strip(), file, reader):
            sides = parted(fact, '≡')
            if len(sides) == 2:
                equal[unwrapped(sides[0])] = sides[1]
            else:
                others.append(fact)
    return equal, others


def owed(function):
    """The left sides that a contract has to settle: the result, or what it refers to, and what each lent memory holds in the end."""
    head = re.split(r'\b(?:ghost|requires|ensures)\b', function.text)[0]
    result = ['result.now' if RESULT.search(head)['lent'] else 'result'] if '->' in head else []
    return result + [f'{name}.new' for name in PARAMETER.findall(head)]


def weaknesses(function, file, reader):
    """What a contract leaves open."""
    equal, others = equations(function, file, reader)
    for fact in others:
        yield f'`{fact}` is no equation'
    for left in owed(function):
        if left not in equal:
            yield f'no equation for `{left}`'
        elif '.new' in equal[left] or (left.startswith('result') and 'result' in sources.tokens(equal[left])):
            yield f'`{left}` is said by what is left itself: `{equal[left]}`'
    for left in equal:
        if left not in owed(function):
            yield f'an equation for `{left}`, which is neither the result nor what lent memory holds in the end'


def impl_weaknesses(each, own_traits):
    """What the ghost members of an `impl` leave open. One is an equation for the last of its variables, which is what a call gives; or, of a
    trait of the repository, the function by which the trait's own contract says that. A clause at a method would stand in place of the
    trait's."""
    trait = re.sub(r'<.*', '', each.path[-1])
    for kind, clause in each.clauses:
        if kind == 'method':
            yield f'a method has `{clause}` of its own, in place of what the trait says'
            continue
        member = sources.normal(clause)
        found = re.fullmatch(r'λ ([^.]*\S)\. (.*)', member, re.S)
        if not found:
            if trait not in own_traits:
                yield f'`{member}` is no equation'
            continue
        given = found[1].split()[-1]
        sides = parted(unwrapped(found[2]), '≡')
        if len(sides) != 2 or unwrapped(sides[0]) != given:
            yield f'`{member}` is no equation for `{given}`'
        elif given in sources.tokens(sides[1]):
            yield f'`{given}` is said by what is left itself: `{sides[1]}`'
