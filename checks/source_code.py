"""A Rattle source as the checks read it: its tokens, brackets, functions and impls.

It reads no types but those that stand in the source, and a source may be incomplete.
"""
from tokens import closers, tokens_of

WORDS_BEFORE_OPERANDS = {"if", "while", "match", "return", "in", "else", "break", "as", "let"}


class Code:
    """The tokens of a source, with the partner of each bracket and the bracket in which each token stands."""

    def __init__(self, source):
        self.tokens = tokens_of(source)
        self.ends = closers(self.tokens)
        self.around = self.surrounding()
        self.functions = list(self.all_functions())
        bodies = map(self.body_of, self.all("trait"))
        self.traits = [range(body, self.ends[body]) for body in bodies if body in self.ends]

    def surrounding(self):
        """The index of the innermost bracket that is open before each token; None outside of all."""
        around = [None] * (len(self.tokens) + 1)
        for at, end in sorted(self.ends.items()):
            around[at + 1 : end + 1] = [at] * (min(end, len(self.tokens)) - at)
        return around

    def text(self, at):
        """The token's text, and that of no token outside of the source."""
        return self.tokens[at].text if 0 <= at < len(self.tokens) else ""

    def is_name(self, at):
        return 0 <= at < len(self.tokens) and self.tokens[at].kind == "name"

    def is_constructor(self, at):
        """Whether the name is one of a type or a variant."""
        name = self.text(at)
        return self.is_name(at) and name[0].isupper() and (len(name) == 1 or name != name.upper())

    def ends_operand(self, at):
        """Whether an expression may end with that token."""
        if not 0 <= at < len(self.tokens):
            return False
        is_word = self.tokens[at].kind in ("number", "name", "character", "text")
        return is_word and self.text(at) not in WORDS_BEFORE_OPERANDS or self.text(at) in (")", "]", "?", "}")

    def all(self, *texts):
        """Where a token has one of the texts."""
        return [at for at, token in enumerate(self.tokens) if token.text in texts and token.kind in ("name", "sign")]

    def behind(self, start, *texts):
        """Where the first of the texts stands from there on, outside of brackets that open there, or the end."""
        at = start
        while at < len(self.tokens) and self.text(at) not in texts:
            at = self.ends.get(at, at) + 1
        return min(at, len(self.tokens))

    def imports(self):
        """The range of each `use` item."""
        return [range(at, self.behind(at, ";")) for at in self.all("use")]

    def body_of(self, at):
        """Where the body of the item that begins there begins."""
        return self.behind(at, "{", ";")

    def behind_angles(self, start):
        """Where the list in angle brackets that begins there ends; there itself where none does."""
        depth, at = 0, start
        while at < len(self.tokens):
            depth += {"<": 1, ">": -1}.get(self.text(at), 0)
            if depth == 0:
                return at + 1 if at > start else start
            at = self.ends.get(at, at) + 1
        return len(self.tokens)

    def angle_before(self, at):
        """The bracket `<` that is open there, within the same list of parameters or statement; None where none is."""
        depth = 0
        while self.text(at) not in (";", "{", "}", "(", "") and not (depth == 0 and self.text(at) == "<"):
            depth += {">": 1, "<": -1}.get(self.text(at), 0)
            at -= 1
        return at if self.text(at) == "<" else None

    def parts(self, start, end):
        """The ranges between the commas that stand there outside of brackets."""
        at = start
        while at < end:
            comma = min(self.comma_from(at, end), end)
            yield range(at, comma)
            at = comma + 1

    def comma_from(self, at, end):
        depth = 0
        while at < end and not (depth == 0 and self.text(at) == ","):
            depth += {"<": 1, ">": -1}.get(self.text(at), 0)
            at = self.ends.get(at, at) + 1
        return at

    def all_functions(self):
        """Each function: the range from its parameters to its body's end, and its parameters' types by their names."""
        for at in self.all("fn"):
            opening = self.behind_angles(at + 2)
            if self.is_name(at + 1) and self.text(opening) == "(":
                body = self.behind(self.ends[opening], "{", ";")
                yield range(opening, self.ends.get(body, body) + 1), self.parameters(opening)

    def parameters(self, opening):
        types = {}
        for part in self.parts(opening + 1, self.ends[opening]):
            colon = self.behind(part.start, ":", ",", ")")
            names = [self.text(at) for at in range(part.start, min(colon, part.stop))]
            words = [self.text(at) for at in range(min(colon, part.stop), part.stop)]
            types[names[-1] if names else ""] = [*(name for name in names if name == "&"), *words[1:]]
        return types

    def type_of(self, name, at):
        """The tokens of the type that a name has there: of a parameter, or as the source writes it behind a colon."""
        for body, types in self.functions:
            if at in body and name in types:
                return types[name]
        for place in self.all(name):
            if self.text(place + 1) == ":" and self.text(place - 1) in ("let", "mut", "const", "static"):
                return [self.text(k) for k in range(place + 2, self.behind(place + 2, "=", ";"))]
        return []

    def type_of_field(self, name):
        """The tokens of the type that the source's structs give a field of that name."""
        for at in self.all("struct"):
            body = self.body_of(at)
            for place in range(body, self.ends.get(body, body)):
                if self.text(place) == name and self.text(place + 1) == ":":
                    return [self.text(k) for k in range(place + 2, self.behind(place + 2, ",", "}"))]
        return []


class Head:
    """The head of an impl: its parameters, its trait, the type that it is for, and where its body begins."""

    def __init__(self, code, at):
        start = code.behind_angles(at + 1)
        self.body = code.body_of(start)
        self.inside = range(self.body, code.ends.get(self.body, self.body))
        parameters = code.parts(at + 2, start - 1)
        self.parameters = {code.text(part.start) for part in parameters if len(part)}
        where = code.behind(start, "where", "{", ";")
        bounded = [*range(at, start), *range(where, self.body)]
        self.bounds = {code.text(k) for k in bounded if code.text(k - 1) in (":", "+", "::", "(")}
        words = [code.text(k) for k in range(start, self.body)]
        words = words[: words.index("where")] if "where" in words else words
        split = words.index("for") if "for" in words else len(words)
        self.of = words[:split]
        self.type = words[split + 1 :]

    def trait_name(self):
        """The trait's name, without its path and its arguments."""
        before = self.of[: self.of.index("<")] if "<" in self.of else self.of
        return before[-1] if before else ""

    def is_of_references(self):
        """Whether it is for a type whose argument is a reference to a parameter, as `W<&T>`."""
        words = [word for word in self.type or self.of if word != "mut" and not word.startswith("'")]
        return any(word == "&" and words[k - 1] in ("<", ",") and behind in self.parameters
                   for k, (word, behind) in enumerate(zip(words, words[1:])))

    def type_name(self):
        """The type's name, without its path and its arguments."""
        words = [word for word in self.type or self.of if word not in ("&", "mut") and not word.startswith("'")]
        before = words[: words.index("<")] if "<" in words else words
        return before[-1] if before else ""

    def bare_type(self):
        """The type without what only borrows it."""
        return [word for word in self.type if word not in ("&", "mut", "(", ")") and not word.startswith("'")]


def heads(code):
    for at in code.all("impl"):
        if code.text(at - 1) in ("", "}", ";", "]", "unsafe", "default", "{"):
            yield at, Head(code, at)
