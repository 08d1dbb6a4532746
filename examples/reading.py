#!/usr/bin/env python3
"""A second reading of docs/LANGUAGE.md: what `chyp check` is to write, found by other means.

It shares nothing with the program. Terms are drawn as graphs and compared by search, and a rule is tried at
every place where its left side occurs, with no thought of speed.

Usage: examples/reading.py check    (a text on standard input, its modules in the current folder)
"""
import itertools
import sys
from collections import namedtuple

STATEMENTS = {"gen", "let", "rule", "rewrite", "import", "show", "type"}
RESERVED = STATEMENTS | {"id", "id0", "sw", "by", "as", "simp", "with"}
SYMBOLS = ":=;*()[],-?"
NAMES = ("identifier", "dotted")
MOST_BYTES, MOST_MODULES = 1_048_576, 64
MOST_PARENTHESES = 256
MOST_PORTS = 64
MOST_GENERATORS, MOST_SIZE, MOST_DEPTH, MOST_TOGETHER = 1024, 200_000, 256, 4_000_000
MOST_PLACEMENTS = 65_536
MOST_REWRITES = 256

Token = namedtuple("Token", "kind start end value")


# ## Tokens


def character_at(text, at):
    """The well-formed character at a place, or None."""
    for end in range(at + 1, min(at + 4, len(text)) + 1):
        try:
            return text[at:end].decode()
        except UnicodeDecodeError:
            pass
    return None


def end_of_identifier(text, at):
    """The end of the identifier at a place, or the place where there is none."""
    end, before = at, ""
    while True:
        character = character_at(text, end)
        if character is None or not (before + character).isidentifier():
            return end
        end, before = end + len(character.encode()), "a"


def word_at(text, at):
    """The name or the reserved word at a place, or None."""
    end = end_of_identifier(text, at)
    if end == at:
        return None
    kind = "identifier"
    while text[end : end + 1] == b"." and end_of_identifier(text, end + 1) > end + 1:
        kind, end = "dotted", end_of_identifier(text, end + 1)
    word = text[at:end].decode()
    return Token(word if word in RESERVED else kind, at, end, word)


def number_at(text, at):
    """The number at a place, which is bad where it has more than 64 bits, or None."""
    end = at
    while text[end : end + 1].isdigit():
        end += 1
    if end == at:
        return None
    value = int(text[at:end])
    return Token("number", at, end, value) if value < 2**64 else Token("bad", at, end, None)


def symbol_at(text, at):
    """The symbol at a place, or else the bad token there."""
    if text.startswith(b"->", at):
        return Token("->", at, at + 2, None)
    character = character_at(text, at)
    if character and character in SYMBOLS:
        return Token(character, at, at + 1, None)
    return Token("bad", at, at + (len(character.encode()) if character else 1), None)


def tokens_of(text):
    """The tokens of a text."""
    tokens, at = [], 0
    while at < len(text):
        if text[at] in b" \t\r\n":
            at += 1
        elif text[at] == ord("#"):
            end = text.find(b"\n", at)
            at = len(text) if end < 0 else end
        else:
            tokens.append(word_at(text, at) or number_at(text, at) or symbol_at(text, at))
            at = tokens[-1].end
    return tokens


def chunks_of(tokens):
    """The tokens of each statement."""
    chunks = []
    for token in tokens:
        if token.kind in STATEMENTS or not chunks:
            chunks.append([])
        chunks[-1].append(token)
    return chunks


# ## Sentences

Name = namedtuple("Name", "token")
Swap = namedtuple("Swap", "token places")
Row = namedtuple("Row", "kind parts semicolons")
Signed = namedtuple("Signed", "minus token")
Reason = namedtuple("Reason", "is_simp rules")
Step = namedtuple("Step", "equals goal reason")
Sentence = namedtuple("Sentence", "kind terms steps ports shown prefix")
IDENTITY, EMPTY = Swap(None, [0]), Swap(None, [])
BY_LAWS = Reason(False, [])


class NoSentence(Exception):
    """The number of the first token with which the tokens begin no sentence."""


class Parser:
    """Reads the sentence of a chunk from the left. It stops at the first token that nothing allows."""

    def __init__(self, chunk):
        self.chunk, self.at = chunk, 0

    def kind(self):
        return self.chunk[self.at].kind if self.at < len(self.chunk) else None

    def expect(self, *kinds):
        if self.kind() not in kinds:
            raise NoSentence(self.at)
        self.at += 1
        return self.at - 1

    def accept(self, kind):
        return self.kind() == kind and self.expect(kind) is not None

    def number(self):
        return self.chunk[self.expect("number")].value

    def term(self, depth=0):
        parts, semicolons = [self.tensor(depth)], []
        while self.kind() == ";":
            semicolons.append(self.expect(";"))
            parts.append(self.tensor(depth))
        return Row("chain", parts, semicolons) if semicolons else parts[0]

    def tensor(self, depth):
        parts = [self.atom(depth)]
        while self.accept("*"):
            parts.append(self.atom(depth))
        return Row("beside", parts, []) if len(parts) > 1 else parts[0]

    def atom(self, depth):
        if self.kind() == "(" and depth == MOST_PARENTHESES:
            raise NoSentence(self.at)
        at = self.expect(*NAMES, "id", "id0", "sw", "(")
        kind = self.chunk[at].kind
        if kind == "(":
            term = self.term(depth + 1)
            self.expect(")")
            return term
        if kind == "sw":
            return Swap(at, self.places())
        return {"id": IDENTITY, "id0": EMPTY}.get(kind, Name(at))

    def listed(self, item, closing):
        """Items with commas between them, and what closes the list."""
        items = [item()]
        while self.accept(","):
            items.append(item())
        self.expect(closing)
        return items

    def places(self):
        return self.listed(self.number, "]") if self.accept("[") else [1, 0]

    def rule(self):
        minus = self.accept("-")
        return Signed(minus, self.expect(*NAMES))

    def reason(self):
        if not self.accept("by"):
            return BY_LAWS
        if not self.accept("simp"):
            return Reason(False, [self.rule()])
        self.expect("(")
        return Reason(True, self.listed(self.rule, ")"))

    def steps(self):
        steps = []
        while self.kind() == "=":
            equals = self.expect("=")
            goal = None if self.accept("?") else self.term()
            steps.append(Step(equals, goal, self.reason()))
            if goal is None:
                break
        return steps

    def sentence(self):
        kind = self.chunk[self.expect("gen", "let", "rule", "rewrite", "import", "show")].kind
        terms, steps, ports, shown, prefix = [], [], [], None, None
        if kind == "show":
            shown = self.expect(*NAMES)
        else:
            self.expect("identifier")
        if kind == "import" and self.accept("as"):
            prefix = self.expect("identifier")
        if kind in ("gen", "rule", "rewrite"):
            self.expect(":")
        if kind == "gen":
            ports.append(self.number())
            self.expect("->")
            ports.append(self.number())
        if kind == "let":
            self.expect("=")
        if kind in ("let", "rule", "rewrite"):
            terms.append(self.term())
        if kind == "rule":
            steps.append(Step(self.expect("="), self.term(), BY_LAWS))
        if kind == "rewrite":
            steps = self.steps()
        if self.at < len(self.chunk):
            raise NoSentence(self.at)
        terms += [step.goal for step in steps if step.goal is not None]
        return Sentence(kind, terms, steps, ports, shown, prefix)


# ## Terms

Generator = namedtuple("Generator", "name inputs outputs")
Wires = namedtuple("Wires", "places")
Joined = namedtuple("Joined", "kind first rest")
Measures = namedtuple("Measures", "size depth generators")
Entry = namedtuple("Entry", "kind term type measures origin", defaults=(None, None, None, None))


class Mistyped(Exception):
    """The number of the token at which a term turns out to have no type."""


class Reader:
    """Reads the terms of a chunk of a module, where names stand for what they do in an environment."""

    def __init__(self, chunk, names, home):
        self.chunk, self.names, self.home = chunk, names, home

    def entry(self, token):
        return self.names.get(self.chunk[token].value)

    def measures(self, tree):
        if isinstance(tree, Name):
            return self.entry(tree.token).measures
        if isinstance(tree, Swap):
            return Measures(1 + len(tree.places), 1, 0)
        return halved([self.measures(part) for part in tree.parts], joined_measures)

    def type(self, tree):
        if isinstance(tree, Name):
            return self.entry(tree.token).type
        if isinstance(tree, Swap):
            if sorted(tree.places) != list(range(len(tree.places))):
                raise Mistyped(tree.token)
            return len(tree.places), len(tree.places)
        if tree.kind == "chain":
            return self.type_of_chain(tree)
        types = [self.type(part) for part in tree.parts]
        return sum(inputs for inputs, _ in types), sum(outputs for _, outputs in types)

    def type_of_chain(self, tree):
        inputs, outputs = self.type(tree.parts[0])
        for semicolon, part in zip(tree.semicolons, tree.parts[1:]):
            wanted, given = self.type(part)
            if outputs != wanted:
                raise Mistyped(semicolon)
            outputs = given
        return inputs, outputs

    def term(self, tree):
        if isinstance(tree, Name):
            return self.entry(tree.token).term
        if isinstance(tree, Swap):
            return Wires(tree.places)
        return halved([self.term(part) for part in tree.parts], lambda a, b: Joined(tree.kind, a, b))


def halved(parts, join):
    """The first half of the parts, rounded down, joined with the rest; both are joined the same way."""
    if len(parts) == 1:
        return parts[0]
    half = len(parts) // 2
    return join(halved(parts[:half], join), halved(parts[half:], join))


def joined_measures(first, rest):
    return Measures(1 + first.size + rest.size, 1 + max(first.depth, rest.depth), first.generators + rest.generators)


def names_in(tree):
    """The tokens of the names in a tree."""
    if isinstance(tree, Name):
        return [tree.token]
    return [token for part in tree.parts for token in names_in(part)] if isinstance(tree, Row) else []


# ## Graphs

Edge = namedtuple("Edge", "name sources targets")


class Graph:
    """A graph: a wire is a number, or whatever else it is called by, and an edge knows the wires that it joins."""

    def __init__(self, wires, edges, inputs, outputs):
        self.wires, self.edges, self.inputs, self.outputs = wires, edges, inputs, outputs
        self.makers = {wire: (k, i) for k, edge in enumerate(self.edges) for i, wire in enumerate(edge.targets)}
        self.users = {wire: (k, i) for k, edge in enumerate(self.edges) for i, wire in enumerate(edge.sources)}


def graph_of(term):
    """The graph of a term: its wires come in the order in which the parts of the term have them."""
    wires, edges = list(range(width(term))), []

    def draw(term, live):
        if isinstance(term, Wires):
            return [live[place] for place in term.places], live
        if isinstance(term, Generator):
            targets = list(range(len(wires), len(wires) + term.outputs))
            wires.extend(targets)
            edges.append(Edge(term.name, live, targets))
            return targets, live + targets
        if term.kind == "chain":
            middle, first = draw(term.first, live)
            outputs, rest = draw(term.rest, middle)
            joined = set(middle)
            return outputs, first + [wire for wire in rest if wire not in joined]
        middle = width(term.first)
        (first, mine), (rest, theirs) = draw(term.first, live[:middle]), draw(term.rest, live[middle:])
        return first + rest, mine + theirs

    inputs = list(wires)
    outputs, order = draw(term, inputs)
    return Graph(order, edges, inputs, outputs)


def width(term):
    """How many inputs a term has."""
    if isinstance(term, Wires):
        return len(term.places)
    if isinstance(term, Generator):
        return term.inputs
    return width(term.first) + (width(term.rest) if term.kind == "beside" else 0)


def followed(one, other, wires, edges, open_wires, open_edges):
    """The pairs with all that hangs on them, or None where they don't fit: wires and edges by their partners."""
    wires, edges = dict(wires), dict(edges)
    while open_wires or open_edges:
        if open_wires:
            a, b = open_wires.pop()
            if wires.get(a, b) != b or (a not in wires and b in wires.values()):
                return None
            if a in wires:
                continue
            wires[a] = b
            for mine, theirs in (one.makers.get(a), other.makers.get(b)), (one.users.get(a), other.users.get(b)):
                if (mine is None) != (theirs is None) or (mine and mine[1] != theirs[1]):
                    return None
                open_edges += [(mine[0], theirs[0])] if mine else []
        else:
            a, b = open_edges.pop()
            if edges.get(a, b) != b or (a not in edges and b in edges.values()):
                return None
            if a in edges:
                continue
            mine, theirs = one.edges[a], other.edges[b]
            if mine.name != theirs.name:
                return None
            edges[a] = b
            open_wires += zip(mine.sources + mine.targets, theirs.sources + theirs.targets)
    return wires, edges


def is_extended(one, other, wires, edges):
    """Whether the pairs can be extended to all edges and wires."""
    left = [k for k in range(len(one.edges)) if k not in edges]
    if not left:
        return len(wires) == len(one.wires)
    found = (followed(one, other, wires, edges, [], [(left[0], k)]) for k in range(len(other.edges)))
    return any(pairs and is_extended(one, other, *pairs) for pairs in found)


def are_isomorphic(one, other):
    """Whether two graphs of one type are isomorphic, with inputs and outputs fixed."""
    if len(one.wires) != len(other.wires) or len(one.edges) != len(other.edges):
        return False
    ends = [*zip(one.inputs, other.inputs), *zip(one.outputs, other.outputs)]
    pairs = followed(one, other, {}, {}, ends, [])
    return pairs is not None and is_extended(one, other, *pairs)


# ## Rules


def bare_wires(graph):
    """The wires that no edge has."""
    return [wire for wire in graph.wires if wire not in graph.makers and wire not in graph.users]


def components(graph):
    """The first edge of each component that has one."""
    firsts, found = [], set()
    for k in range(len(graph.edges)):
        if k in found:
            continue
        firsts.append(k)
        waiting = [k]
        while waiting:
            edge = waiting.pop()
            if edge in found:
                continue
            found.add(edge)
            ports = graph.edges[edge].sources + graph.edges[edge].targets
            waiting += [end[wire][0] for wire in ports for end in (graph.makers, graph.users) if wire in end]
    return firsts


def placements(left, graph):
    """In how many ways the components of the left side may begin in a graph, or the most that 64 bits hold."""
    names = [edge.name for edge in graph.edges]
    count = len(graph.wires) ** len(bare_wires(left))
    for k in components(left):
        count *= names.count(left.edges[k].name)
    return min(count, 2**64 - 1)


def paired(mine, theirs, wires):
    """The wires with those pairs added, or None where a wire would have two partners."""
    wires = dict(wires)
    for a, b in zip(mine, theirs):
        if wires.setdefault(a, b) != b:
            return None
    return wires if len(set(wires.values())) == len(wires) else None


def embeddings(left, graph, edges, wires):
    """All images of the edges and wires of the left side in a graph that fit, each edge and wire for itself."""
    k = len(edges)
    if k < len(left.edges):
        mine = left.edges[k]
        for number, theirs in enumerate(graph.edges):
            if number not in edges and theirs.name == mine.name:
                more = paired(mine.sources + mine.targets, theirs.sources + theirs.targets, wires)
                if more is not None:
                    yield from embeddings(left, graph, [*edges, number], more)
        return
    free = [wire for wire in graph.wires if wire not in wires.values()]
    bare = [wire for wire in left.wires if wire not in wires]
    for images in itertools.permutations(free, len(bare)):
        yield edges, {**wires, **dict(zip(bare, images))}


def is_convex(graph, edges, wires):
    """Whether no chain of edges outside the image leads from an image wire to an image wire."""
    image, found = set(wires.values()), set()
    waiting = list(image)
    while waiting:
        k = graph.users.get(waiting.pop(), (None,))[0]
        if k is None or k in edges or k in found:
            continue
        found.add(k)
        if image & set(graph.edges[k].targets):
            return False
        waiting += graph.edges[k].targets
    return True


def occurrences(left, graph):
    """All convex occurrences of the left side in a graph."""
    return [found for found in embeddings(left, graph, [], {}) if is_convex(graph, *found)]


def replaced(graph, left, right, edges, wires):
    """The graph with an occurrence of the left side replaced by the right side."""
    image = set(wires.values())
    makes = {wires[a]: ("new", b) for a, b in zip(left.inputs, right.inputs)}
    takes = {wires[a]: ("new", b) for a, b in zip(left.outputs, right.outputs)}
    new = lambda ports: [("new", wire) for wire in ports]
    kept = [
        Edge(edge.name, [takes.get(wire, wire) for wire in edge.sources], [makes.get(wire, wire) for wire in edge.targets])
        for k, edge in enumerate(graph.edges) if k not in edges
    ]
    return Graph(
        [wire for wire in graph.wires if wire not in image] + new(right.wires),
        kept + [Edge(edge.name, new(edge.sources), new(edge.targets)) for edge in right.edges],
        [makes.get(wire, wire) for wire in graph.inputs], [takes.get(wire, wire) for wire in graph.outputs],
    )


# ## Runs of rules


class Ends(Exception):
    """The words of the end of a run that ends in no normal form."""


def numbered(graph):
    """The graph with the places of its wires in place of their names."""
    place = {wire: k for k, wire in enumerate(graph.wires)}
    new = lambda ports: [place[wire] for wire in ports]
    edges = [Edge(edge.name, new(edge.sources), new(edge.targets)) for edge in graph.edges]
    return Graph(new(graph.wires), edges, new(graph.inputs), new(graph.outputs))


def rewritten(graph, rules):
    """The graph with the least occurrence of the first rule that has one replaced, or None where no rule has one."""
    for left, right in rules:
        count = placements(left, graph)
        if count > MOST_PLACEMENTS:
            raise Ends(f"too-wide {count}")
        # They come in lexicographic order.
        found = next((each for each in embeddings(left, graph, [], {}) if is_convex(graph, *each)), None)
        if found is not None:
            return numbered(replaced(graph, left, right, *found))
    return None


def normal_form(graph, rules):
    """The graph to which the rules lead."""
    for _ in range(MOST_REWRITES):
        after = rewritten(graph, rules)
        if after is None:
            return graph
        graph = after
    if rewritten(graph, rules) is not None:
        raise Ends("simp-limit")
    return graph


# ## Verdicts


class Refused(Exception):
    """The words of a verdict, and the number of the token that it names, if it names one."""


def check_names(sentence, reader):
    """Refuses the first name at fault."""
    in_terms = {token for term in sentence.terms for token in names_in(term)}
    in_reasons = {signed.token for step in sentence.steps for signed in step.reason.rules}
    if sentence.shown is not None and reader.entry(sentence.shown) is None:
        raise Refused("unknown", sentence.shown)
    for token in sorted(in_terms | in_reasons):
        entry = reader.entry(token)
        if entry is None:
            raise Refused("unknown", token)
        if entry.kind == "broken":
            raise Refused("broken", token)
        if entry.kind not in (("generator", "term") if token in in_terms else ("law", "unproved")):
            raise Refused("kind", token)


def check_limits(sentence, reader):
    """Refuses what is too big."""
    measures = [reader.measures(term) for term in sentence.terms]
    for each in measures:
        if each.generators > MOST_GENERATORS or each.size > MOST_SIZE or each.depth > MOST_DEPTH:
            raise Refused("too-big", None)
    if any(ports > MOST_PORTS for ports in sentence.ports) or sum(each.size for each in measures) > MOST_TOGETHER:
        raise Refused("too-big", None)


def check_types(sentence, reader):
    """Refuses the first token at which terms have no type, or not one type."""
    try:
        types = [reader.type(term) for term in sentence.terms[:1]]
        for step in sentence.steps:
            if step.goal is not None and reader.type(step.goal) != types[0]:
                raise Mistyped(step.equals)
    except Mistyped as found:
        raise Refused("type", *found.args) from None


def sides(signed, reader):
    """The graphs of the sides of a rule, in the direction in which it is used."""
    left, right = [graph_of(term) for term in reader.entry(signed.token).term]
    return (right, left) if signed.minus else (left, right)


def check_forms(number, before, after, rules):
    """Refuses a step by `simp` that isn't good."""
    try:
        first = normal_form(numbered(before), rules)
        second = normal_form(numbered(after), rules)
    except Ends as found:
        raise Refused(f"step {number} {found}", None) from None
    if not are_isomorphic(first, second):
        raise Refused(f"step {number} simp-differs", None)


def check_step(number, before, after, reason, reader):
    """Refuses a step that isn't good."""
    if not reason.rules:
        if not are_isomorphic(before, after):
            raise Refused(f"step {number} differs", None)
        return
    rules = [sides(signed, reader) for signed in reason.rules]
    if reason.is_simp:
        check_forms(number, before, after, rules)
        return
    ((left, right),) = rules
    count = placements(left, before)
    if count > MOST_PLACEMENTS:
        raise Refused(f"step {number} too-wide {count}", None)
    found = occurrences(left, before)
    if not any(are_isomorphic(replaced(before, left, right, *each), after) for each in found):
        raise Refused(f"step {number} no-rewrite {len(found)}", None)


def check_steps(sentence, reader):
    """Refuses a rewrite that uses an unproved one, or that has a step that is not good."""
    for signed in [signed for step in sentence.steps for signed in step.reason.rules]:
        if reader.entry(signed.token).kind == "unproved":
            raise Refused("unproved", signed.token)
    graphs = [graph_of(reader.term(term)) for term in sentence.terms]
    for number, (before, after, step) in enumerate(zip(graphs, graphs[1:], sentence.steps), 1):
        check_step(number, before, after, step.reason, reader)
    if not sentence.steps or sentence.steps[-1].goal is None:
        raise Refused("open", None)


def entry_of(sentence, reader):
    """What the name of a statement that nothing refuses stands for."""
    if sentence.kind == "gen":
        term = Generator((reader.home, reader.chunk[1].value), *sentence.ports)
        return Entry("generator", term, tuple(sentence.ports), Measures(1 + sum(sentence.ports), 1, 1))
    if sentence.kind == "let":
        (tree,) = sentence.terms
        return Entry("term", reader.term(tree), reader.type(tree), reader.measures(tree))
    if sentence.kind in ("rule", "rewrite"):
        return Entry("law", (reader.term(sentence.terms[0]), reader.term(sentence.terms[-1])))
    return Entry("shown")


def judged(chunk, names, home, library):
    """What a good statement of a module binds, by the names that it binds; a statement that is not good is refused."""
    try:
        sentence = Parser(chunk).sentence()
    except NoSentence as found:
        raise Refused("syntax", *found.args) from None
    if sentence.kind == "import":
        return taken_in(chunk, sentence, names, library)
    if sentence.kind != "show" and chunk[1].value in names:
        raise Refused("declared", 1)
    reader = Reader(chunk, names, home)
    check_names(sentence, reader)
    check_limits(sentence, reader)
    check_types(sentence, reader)
    if sentence.kind == "rewrite":
        check_steps(sentence, reader)
    return {} if sentence.kind == "show" else {chunk[1].value: entry_of(sentence, reader)}


# ## Modules


class TooLong(Exception):
    """A text is too long, or there are too many modules."""


def wanted_by(chunks):
    """The modules that the import statements among the chunks name, in order."""
    names = []
    for chunk in chunks:
        if chunk[0].kind == "import":
            try:
                Parser(chunk).sentence()
                names.append(chunk[1].value)
            except NoSentence:
                pass
    return names


class Library:
    """The chunks of a text, whose name is empty, and of each module that it reaches; None for one that is absent."""

    def __init__(self, text, text_of):
        self.chunks, self.imports, self.passed_on = {}, {}, {}
        waiting = [""]
        while waiting:
            name = waiting.pop(0)
            if name in self.chunks:
                continue
            given = text_of(name) if name else text
            self.chunks[name] = None if given is None else chunks_within_limit(given)
            self.imports[name] = wanted_by(self.chunks[name] or [])
            waiting += self.imports[name]
            if sum(chunks is not None for each, chunks in self.chunks.items() if each) > MOST_MODULES:
                raise TooLong

    def reached_from(self, name):
        """The modules that one reaches by one import or more."""
        found, waiting = set(), [*self.imports[name]]
        while waiting:
            if (other := waiting.pop()) not in found:
                found.add(other)
                waiting += self.imports[other]
        return found

    def names_of(self, name):
        """What the names of a module that doesn't reach itself stand for, in the order in which they are bound."""
        if name not in self.passed_on:
            self.passed_on[name] = {}
            for number, chunk in enumerate(self.chunks[name]):
                verdict_on(chunk, number, self.passed_on[name], name, self)
        return self.passed_on[name]


def chunks_within_limit(text):
    if len(text) > MOST_BYTES:
        raise TooLong
    return chunks_of(tokens_of(text))


def taken_in(chunk, sentence, names, library):
    """What an import binds."""
    module = chunk[1].value
    if library.chunks[module] is None:
        raise Refused("no-module", 1)
    if module in library.reached_from(module):
        raise Refused("cycle", 1)
    before = "" if sentence.prefix is None else chunk[sentence.prefix].value + "."
    taken = {before + name: entry for name, entry in library.names_of(module).items()}
    for name, entry in taken.items():
        if name in names and names[name].origin != entry.origin:
            raise Refused(f"clash {name}", None)
    return taken


def verdict_on(chunk, number, names, home, library):
    """The words of a statement's verdict, the token that it names, if any, and whether it is good. Its names are bound."""
    kind = chunk[0].kind
    verdict, token, is_good = "proved" if kind == "rewrite" else "ok", None, True
    try:
        bound = judged(chunk, names, home, library)
    except Refused as found:
        verdict, token = found.args
        is_good = False
        declares = kind in ("gen", "let", "rule", "rewrite") and len(chunk) > 1 and chunk[1].kind == "identifier"
        bound = {chunk[1].value: Entry("unproved" if kind == "rewrite" else "broken")} if declares else {}
    for name, entry in bound.items():
        names.setdefault(name, entry if entry.origin else entry._replace(origin=(home, number)))
    return verdict, token, is_good


# ## Reports


def place_of(text, at):
    """The line and the column of a byte, both from 1."""
    line, start = text.count(b"\n", 0, at) + 1, text.rfind(b"\n", 0, at) + 1
    return f"{line}:{at - start + 1}"


def place_in(text, chunk, token):
    """The place of a token of a chunk, or just behind the last one."""
    return place_of(text, chunk[token].start if token < len(chunk) else chunk[-1].end)


def line_of(text, chunk, verdict, token):
    """The report's line on a statement."""
    is_stray = chunk[0].kind not in STATEMENTS
    kind = "stray" if is_stray else chunk[0].kind
    shown = chunk[1].value if not is_stray and len(chunk) > 1 and chunk[1].kind in NAMES else "-"
    at = "" if token is None else f" at {place_in(text, chunk, token)}"
    return f"{place_of(text, chunk[0].start)} {kind} {shown} {verdict}{at}\n"


def report(text, text_of=lambda name: None):
    """What `chyp check` writes on a text, and its status. Modules have the texts that a function of their names gives, or None."""
    try:
        library = Library(text, text_of)
    except TooLong:
        return b"", 6
    names, lines, good = {}, [], 0
    for number, chunk in enumerate(library.chunks[""]):
        verdict, token, is_good = verdict_on(chunk, number, names, "", library)
        lines.append(line_of(text, chunk, verdict, token))
        good += is_good
    total = f"total {len(lines)} good {good}\n"
    return "".join([*lines, total]).encode(), 0 if good == len(lines) else 1


def text_in_folder(name):
    """The text of a module in the current folder."""
    try:
        with open(f"{name}.chyp".encode(), "rb") as file:
            return file.read()
    except FileNotFoundError:
        return None


if __name__ == "__main__":
    if sys.argv[1:] != ["check"]:
        sys.exit(2)
    written, status = report(sys.stdin.buffer.read(), text_in_folder)
    sys.stdout.buffer.write(written)
    sys.exit(status)
