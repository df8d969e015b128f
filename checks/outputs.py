"""What the program prints, compared up to the order of lines and of atoms and the names of variables."""
import re

TOKEN = re.compile(
    r'"(?:[^"\\]|\\.)*"(?:\^\^<[^>]*>|\^\^[\w:-]+|@[\w-]+)?|<[^>]*>|[+-]?[^\s(),"<>?:.]+|[(),]')
VARIABLE = re.compile(r'X\d+$')


def query(line):
    """The answer terms and the atoms of a printed query."""
    head, body = line.split(' :- ', 1)
    answers = [t for t in TOKEN.findall(head) if t not in '(),']
    atoms, atom = [], []
    for token in TOKEN.findall(body):
        if token == ')':
            atoms.append(tuple(atom))
            atom = []
        elif token not in '(,':
            atom.append(token)
    return answers, atoms


def matched(ones, others, names):
    """The renaming that sends these terms to those, if it goes on with `names`; else None."""
    if len(ones) != len(others):
        return None
    names = dict(names)
    for one, other in zip(ones, others):
        if not VARIABLE.match(one):
            if one != other:
                return None
        elif one in names:
            if names[one] != other:
                return None
        elif not VARIABLE.match(other) or other in names.values():
            return None
        else:
            names[one] = other
    return names


def same_atoms(ones, others, names):
    if not ones:
        return not others
    for place, other in enumerate(others):
        more = matched(ones[0][1:], other[1:], names) if ones[0][0] == other[0] else None
        if more is not None and same_atoms(ones[1:], others[:place] + others[place + 1:], more):
            return True
    return False


def same_query(one, other):
    """Whether two printed queries are equal up to the order of atoms and the names of variables."""
    (answers, atoms), (other_answers, other_atoms) = query(one), query(other)
    names = matched(answers, other_answers, {})
    return names is not None and len(atoms) == len(other_atoms) and same_atoms(atoms, other_atoms, names)


def lacks(ones, others):
    """The queries of the first list that are none of the second, each of which stands for one."""
    rest, lacking = list(others), []
    for one in ones:
        found = next((other for other in rest if same_query(one, other)), None)
        if found is None:
            lacking.append(one)
        else:
            rest.remove(found)
    return lacking


def parts(out):
    """The lines that are no queries, and the queries."""
    lines = out.splitlines(keepends=True)
    return ([line for line in lines if not line.startswith('?')],
            [line for line in lines if line.startswith('?')])


def same_output(out, want):
    """Whether two outputs are equal up to the order of the queries, their atoms and their variables' names."""
    (others, queries), (wanted_others, wanted_queries) = parts(out), parts(want)
    return (others == wanted_others and len(queries) == len(wanted_queries)
            and not lacks(queries, wanted_queries))


def is_front(out, want):
    """Whether the output is the beginning of such an output."""
    whole = out[:out.rfind('\n') + 1]
    others, queries = parts(whole)
    last = out[len(whole):]
    wanted_others, wanted_queries = parts(want)
    return (wanted_others[:len(others)] == others and not lacks(queries, wanted_queries)
            and (not last or last[0] in '?%'))
