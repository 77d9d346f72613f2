"""The normal form of an item: bound names are numbered, all others resolved to where they come from."""
from .antt_items import CLOSING, KEYWORDS, OPENING, PUNCTUATION, binder_names, close_of, find_flat, is_projection

SELF = "<itself>"


class Walker:
    """Goes through the tokens of an item, and writes its normal form; gathers the origins and imports that it uses."""

    def __init__(self, repository, item, mentions=None):
        self.repository, self.item, self.mentions = repository, item, mentions or {}
        self.file = repository.paths[item.path]
        self.scope = repository.scopes[item.path]
        self.out, self.count, self.pending = [], 0, []
        self.frames = [{tokens[1].text: "!" + tokens[1].text for tokens in item.params} | item.outer]
        self.origins, self.imports, self.modules = set(), set(), set()
        self.mentioned, self.surrounding = set(), set()
        self.lifted = []

    def bind(self, word, frame):
        """Number a bound name, and write it."""
        self.count += 1
        frame[word] = f"#{self.count}"
        self.out.append(frame[word])

    def lookup(self, word):
        """What a bound name is written as, or None; a variable around a local item is numbered where it first occurs."""
        for frame in reversed(self.frames):
            if word in frame:
                if frame[word] is None:
                    self.count += 1
                    frame[word] = f"#{self.count}"
                if frame is self.frames[0]:
                    (self.mentioned if frame[word].startswith("!") else self.surrounding).add(word)
                return frame[word]
        return None

    def free(self, origin, number=None):
        """Write a name that isn't bound here, with the parameters of its section where it stands in the same one."""
        self.origins.add(origin)
        if number is not None:
            self.imports.add(number)
        self.out.append(("from", origin))
        for word in self.mentions.get(origin, ()):
            self.out.append(self.lookup(word) or word)

    def word(self, tokens, i):
        """Write the name at `i` with the path or the fields behind it; the index of what follows."""
        word, k = tokens[i].text, i + 1
        label = k < len(tokens) and tokens[k].text == "=" and i > 0 and tokens[i - 1].text in {"{", ";"}
        chain = []
        while k < len(tokens) and is_projection(tokens, k):
            chain.append(tokens[k + 1].text)
            k += 2
        bound = None if label else self.lookup(word)
        if label or word in KEYWORDS or word[0].isdigit() or word[0] == '"':
            self.out.append(word)
        elif bound:
            if bound.startswith("@"):
                self.origins.add(bound[1:])
            self.out.append(("from", bound[1:]) if bound.startswith("@") else bound)
        elif word == self.item.name:
            self.origins.add(self.item.origin)
            self.out += [SELF] + [self.lookup(name) or name for name in self.lifted]
        elif chain and (word in self.file.modules or word in {"Rattle", "package"}) and word not in self.file.names:
            chain = self.path(word, chain)
        elif word in self.scope:
            self.free(*self.scope[word])
        else:
            self.out.append(word)
        self.out += ["." + name for name in chain]
        return k

    def path(self, word, chain):
        """Write a name that is given by its module; the fields that are left."""
        self.modules.add(word)
        module = self.file.modules.get(word, word)
        known = [k for k in range(len(chain)) if ".".join([module] + chain[:k]) in self.repository.files]
        k = known[-1] if known else (0 if word in self.file.modules else len(chain) - 1)
        self.free(self.repository.origin(".".join([module] + chain[:k]), chain[k]))
        return chain[k + 1:]

    def pattern(self, tokens, frame):
        """Write a pattern, and bind its variables in the frame."""
        i = 0
        while i < len(tokens):
            word, count = tokens[i].text, binder_names(tokens, i) if tokens[i].text in {"(", "{"} else 0
            following = tokens[i + 1].text if i + 1 < len(tokens) else ""
            if count:
                i = self.binder(tokens, i, count, frame)
                continue
            if word in PUNCTUATION or word in KEYWORDS or word == SELF or word[0].isdigit() or word[0] in '"':
                self.out.append(word)
            elif word == self.item.name and i == 0:
                self.out.append(SELF)
            elif following == "=" and tokens[i - 1].text in {"{", ";"}:
                self.out.append(word)
            elif (i + 1 < len(tokens) and is_projection(tokens, i + 1)) or self.repository.is_constructor(word, self.scope):
                i = self.word(tokens, i)
                continue
            else:
                if word in self.scope and self.scope[word][1] is not None:
                    self.imports.add(self.scope[word][1])
                self.bind(word, frame)
            i += 1

    def binder(self, tokens, i, count, frame):
        """Write `(x y : T)` as a binder for each name; the index behind it and behind the arrow that follows it."""
        close = close_of(tokens, i)
        for k in range(1, count + 1):
            self.out.append("(")
            self.frames.append({})
            kind, self.out = self.out, []
            self.walk(tokens[i + count + 2:close])
            kind, self.out = self.out, kind
            self.frames.pop()
            self.bind(tokens[i + k].text, frame)
            self.out += [":"] + kind + [")"]
        close += 1
        return close + 1 if close < len(tokens) and tokens[close].text == "→" else close

    def walk(self, tokens):
        """Write tokens that are no pattern."""
        i, steps = 0, {"λ": self.lambda_at, "let": self.let_at, "[": self.case_at, "|": self.case_at}
        arrows = {token.line for token in tokens if token.text == "←"}
        while i < len(tokens):
            token = tokens[i]
            word = token.text
            count = binder_names(tokens, i) if word in {"(", "{"} else 0
            starts = arrows and token.line in arrows and (token.first or tokens[i - 1].text == "do")
            if count:
                i = self.binder(tokens, i, count, self.frames[-1])
            elif starts and (arrow := find_flat(tokens, {"←"}, i)) is not None and tokens[arrow].line == token.line:
                self.pattern(tokens[i:arrow], self.frames[-1])
                self.out.append("←")
                i = arrow + 1
            elif word in steps:
                i = steps[word](tokens, i)
            elif word in PUNCTUATION or word == "]":
                i = self.sign(tokens, i)
            elif word in {"in", "unfold", "do"}:
                i = self.keyword(word, i)
            else:
                i = self.word(tokens, i)

    def sign(self, tokens, i):
        """Write a bracket, a comma or a dot, and open or close what is bound in it."""
        word = tokens[i].text
        if word != ";" or [token.text for token in tokens[i + 1:i + 2]] != ["}"]:
            self.out.append(word)
        if word in OPENING:
            self.frames.append({})
        elif word in CLOSING and len(self.frames) > 1:
            self.frames.pop()
        elif word in {",", ";"}:
            self.frames[-1] = {}
        elif word == "." and is_projection(tokens, i):
            self.out.append(tokens[i + 1].text)
            return i + 2
        return i + 1

    def keyword(self, word, i):
        """Write `in`, which begins the scope of a `let`, or `unfold` or `do`."""
        self.out.append(word)
        if word == "unfold":
            self.pending.append({})
        elif word == "in" and self.pending:
            self.frames[-1] = self.frames[-1] | self.pending.pop()
        elif word == "do":
            for name in {">>=", ">>"} & self.scope.keys():
                self.free(*self.scope[name])
        return i + 1

    def lambda_at(self, tokens, i):
        """Write the binders of a λ."""
        end = i + 1
        while end < len(tokens) and (tokens[end].text != "." or is_projection(tokens, end)):
            end = close_of(tokens, end) + 1 if tokens[end].text in OPENING else end + 1
        self.out.append("λ")
        self.pattern(tokens[i + 1:end], self.frames[-1])
        return end

    def let_at(self, tokens, i):
        """Write the pattern of a `let`, whose names are bound from its `in` on."""
        end = find_flat(tokens, {":", "="}, i + 1) or len(tokens)
        names = {}
        self.out.append("let")
        self.pattern(tokens[i + 1:end], names)
        self.pending.append(names)
        return end

    def case_at(self, tokens, i):
        """Write the bracket or the bar in front of a case of an `elim`, and bind the variables of the case."""
        self.out.append(tokens[i].text)
        if tokens[i].text == "[":
            self.frames.append({})
            i += [token.text for token in tokens[i + 1:i + 2]] == ["|"]
        else:
            self.frames[-1] = {}
        end = find_flat(tokens, {"↦", "|", "]"}, i + 1)
        if end is None or tokens[end].text != "↦":
            return i + 1
        self.pattern(tokens[i + 1:end], self.frames[-1])
        return end

    def clause(self, body, local):
        """Write a clause with its local items; its variables surround these."""
        equals = find_flat(body, {"="})
        frame = {}
        self.frames.append(frame)
        if equals is None or body[0].text == "unfolding":
            self.walk(body)
        else:
            self.pattern(body[:1], frame)
            for name in self.lifted:
                self.bind(name, frame)
            self.pattern(body[1:equals], frame)
            variables = list(frame)
            for item in local:
                self.bind(item.name, frame)
            self.walk(body[equals:])
            for item in local:
                item.outer = {name: None for name in list(self.item.outer) + variables}
                item.outer |= {other.name: "@" + other.origin for other in local if other is not item}
                self.part(item)
        self.frames.pop()

    def part(self, item):
        """Write a local item within the item that it belongs to."""
        self.frames.append({})
        self.out.append("where")
        self.walk(item.head)
        self.frames.pop()
        outer, self.item, lifted, self.lifted = self.item, item, self.lifted, []
        for body, local in item.clauses:
            self.clause(body, local)
        self.item, self.lifted = outer, lifted

    def lift(self, names):
        """Write the parameters of the item's section with these names as binders in front of it."""
        for tokens in self.item.params:
            name = tokens[1].text
            if name in names and name not in self.item.outer:
                self.binder(tokens, 0, 1, self.frames[0])
                if tokens[0].text == "(" and not self.item.parent:
                    self.lifted.append(name)

    def whole(self):
        """Write a definition as a whole."""
        self.frames.append({})
        self.walk(self.item.head)
        for names, kind in self.item.members:
            self.out += names
            self.frames.append({})
            self.walk(kind)
            self.frames.pop()
            self.frames[-1].update({name: "." + name for name in names if self.item.form == "record"})
        self.frames.pop()
        for body, local in self.item.clauses:
            self.clause(body, local)
        return self.out

    def statement(self):
        """Write the type of a lemma."""
        self.frames.append({})
        self.walk(self.item.head[find_flat(self.item.head, {":"}) + 1:])
        self.frames.pop()
        return self.out
