"""Terms that share their parts, and a reader of s-expressions that keeps what is shared.

A term is a number. An atom's number represents its text, and any other number a tuple of numbers.
Equal terms have equal numbers, so a proof takes as much memory as it has different parts."""
import re
from struct import Struct
from sys import byteorder

TOKEN = re.compile(r'[ \t\r\n]+|;[^\n\r]*|\(|\)|\|[^|]*\||"(?:[^"]|"")*"|[^ \t\r\n()|";]+')
BLANK = " \t\r\n;"  # what begins a blank or a comment
SIZE = 4  # the bytes that a number takes in a list


class Packing(dict):
    """How a list of so many numbers is packed into bytes."""

    def __missing__(self, count):
        self[count] = packing = Struct("=%dI" % count)
        return packing


PACKING = Packing()


class Nodes(list):
    """The text of each atom, and the parts of each other term, which are kept packed."""

    def __getitem__(self, term):
        node = list.__getitem__(self, term)
        return node if isinstance(node, str) else PACKING[len(node) // SIZE].unpack(node)

    def first(self, term):
        """The first part; None of an atom or of the empty list."""
        node = list.__getitem__(self, term)
        return None if isinstance(node, str) or not node else int.from_bytes(node[:SIZE], byteorder)


class Terms:
    """The table of all terms: `nodes[n]` is the text of the atom n, or the tuple of the parts of n."""

    def __init__(self):
        self.nodes = Nodes()
        self.uses = bytearray()  # how often a term is a part of another, up to 2
        self.numbers = {}

    def atom(self, text):
        """The number of an atom."""
        return self._number(text)

    def app(self, *parts):
        """The number of the list of these parts, each a number or an atom's text."""
        return self.list(tuple(self._number(p) if isinstance(p, str) else p for p in parts))

    def list(self, parts):
        """The number of the list of these numbers."""
        packed = PACKING[len(parts)].pack(*parts)
        number = self.numbers.get(packed)
        if number is None:
            number = self._number(packed)
            self._use(parts)
        return number

    def single(self, parts):
        """A number for a list that no other has, even an equal one: that takes a third of the memory."""
        number = len(self.nodes)
        self.nodes.append(PACKING[len(parts)].pack(*parts))
        self.uses.append(0)
        self._use(parts)
        return number

    def _use(self, parts):
        uses = self.uses
        for part in parts:
            if uses[part] < 2:
                uses[part] += 1

    def _number(self, node):
        number = self.numbers.get(node)
        if number is None:
            number = len(self.nodes)
            self.numbers[node] = number
            self.nodes.append(node)
            self.uses.append(0)
        return number

    def is_atom(self, term):
        return isinstance(self.nodes[term], str)

    def head(self, term):
        """The text of the first part where that is an atom, else None."""
        first = self.nodes.first(term)
        text = None if first is None else self.nodes[first]
        return text if isinstance(text, str) else None

    def arguments(self, term):
        """The parts after the first; of an atom none."""
        node = self.nodes[term]
        return () if isinstance(node, str) else node[1:]


def pieces(text):
    """The pieces of a file's text."""
    while True:
        piece = text.read(1 << 16)
        if not piece:
            return
        yield piece


def tokens(pieces):
    """The tokens of a text that comes in pieces, without blanks and comments."""
    rest = ""
    for piece in pieces:
        text = rest + piece
        at = 0
        while True:
            found = TOKEN.match(text, at)
            if found is None or found.end() == len(text):
                break  # it may go on in the next piece
            token = found.group()
            if token[0] not in BLANK:
                yield token
            at = found.end()
        rest = text[at:]
    for found in TOKEN.finditer(rest):
        if found.group()[0] not in BLANK:
            yield found.group()


def read(terms, pieces):
    """The terms of a text, one after another. `let` is read as what its names mean.

    A proof's steps, and their lists of arguments, are each a term of their own: what is shared of these the
    text has under names. Nothing here calls itself: a list is on a stack while it is open, however deep."""
    bound = {}  # what each name that a `let` binds means
    open_lists = []
    current = []
    let = terms.atom("let")
    conclusion, arguments = terms.atom(":conclusion"), terms.atom(":args")
    for token in tokens(pieces):
        if token == "(":
            open_lists.append(current)
            current = []
            # the body of a `let` begins after its bindings, which are kept as a mark
            continue
        if token == ")":
            if len(current) == 3 and current[0] == let and isinstance(current[1], list):
                for name, before in current[1]:
                    if before is None:
                        del bound[name]
                    else:
                        bound[name] = before
                item = current[2]
            elif is_bindings(current, open_lists, let):
                item = [(name, bound.get(name)) for name, _ in current]  # what the names meant before
                bound.update(current)
            elif is_binding(current, open_lists, let):
                item = (current[0], current[1])
            elif len(current) > 1 and current[1] == conclusion or open_lists[-1] and open_lists[-1][-1] == arguments:
                item = terms.single(current)
            else:
                item = terms.list(current)
            current = open_lists.pop()
        elif is_bound_name(current, open_lists, let):
            item = token
        else:
            item = bound.get(token)
            if item is None:
                item = terms.atom(token)
        if not open_lists:
            yield item
        else:
            current.append(item)


def is_bindings(current, open_lists, let):
    """Whether the list that ends is the bindings of a `let`."""
    outer = open_lists[-1]
    return len(outer) == 1 and outer[0] == let and bool(current) and isinstance(current[0], tuple)


def is_binding(current, open_lists, let):
    """Whether the list that ends is one binding of a `let`: a name and what it means."""
    if len(open_lists) < 2:
        return False
    outer = open_lists[-2]
    return len(current) == 2 and len(outer) == 1 and outer[0] == let and is_pairs(open_lists[-1])


def is_pairs(items):
    return all(isinstance(item, tuple) for item in items)


def is_bound_name(current, open_lists, let):
    """Whether the atom that comes is the name that a `let` binds."""
    return not current and len(open_lists) >= 2 and len(open_lists[-2]) == 1 and open_lists[-2][0] == let
