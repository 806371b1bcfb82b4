"""A second reading of the rules, in Python, to compute expected values apart from the product.

It reads C0, answers the translator's questions, lists the published code with its places, and runs a source by its
meaning (never by its code). Nothing here is proved, and nothing of the product is used.
"""

BLANKS = b"\t\n\r "
RESERVED = {"int", "main", "scanf", "printf", "if", "else", "while", "return"}
SYMBOLS = ['"%d"', "==", "!=", "<=", ">=", "<", ">", "=", "(", ")", "{", "}", ",", ";", "&", "+", "-", "*", "/", "%"]
RELATIONS = {"==": "EQ", "!=": "NE", "<": "LT", ">": "GT", "<=": "LE", ">=": "GE"}
SUMS = {"+": "ADD", "-": "SUB"}
PRODUCTS = {"*": "MUL", "/": "DIV", "%": "MOD"}


class Refused(Exception):
    def __init__(self, number, place):
        self.number, self.place = number, place


# ---- tokens: (kind, text, place); kind is 'head', 'word', 'name', 'number' or 'symbol'


def token_at(s, i):
    c = s[i]
    if chr(c).isascii() and chr(c).isalpha():
        j = i
        while j < len(s) and chr(s[j]).isascii() and chr(s[j]).isalnum():
            j += 1
        text = s[i:j].decode()
        return ("word" if text in RESERVED else "name", text, j)
    if 48 <= c <= 57:
        j = i
        while j < len(s) and 48 <= s[j] <= 57:
            j += 1
        if j - i >= 2 and c == 48:
            return None
        return ("number", s[i:j].decode(), j)
    if s.startswith(b"#include", i):
        j = i + 8
        while j < len(s) and s[j] in b" \t":
            j += 1
        return ("head", "#", j + 9) if s.startswith(b"<stdio.h>", j) else None
    for symbol in SYMBOLS:
        if s.startswith(symbol.encode(), i):
            return ("symbol", symbol, i + len(symbol))
    return None


def tokens_of(s):
    if len(s) > 16384:
        raise Refused(1, 16384)
    found, i = [], 0
    while i < len(s):
        if s[i] in BLANKS:
            i += 1
            continue
        token = token_at(s, i)
        if token is None:
            raise Refused(2, i)
        found.append((token[0], token[1], i))
        i = token[2]
    for kind, text, place in found:
        if kind == "name" and len(text) > 16 or kind == "number" and int(text) > 1073741823:
            raise Refused(3, place)
    return found


# ---- trees, as tuples


class Parser:
    def __init__(self, tokens, length):
        self.tokens, self.length, self.at = tokens, length, 0

    def look(self):
        if self.at == len(self.tokens):
            raise Refused(4, self.length)
        return self.tokens[self.at]

    def no(self, number=4):
        raise Refused(number, self.look()[2])

    def is_text(self, text):
        kind, spelled, _ = self.look()
        return kind != "name" and kind != "number" and spelled == text

    def expect(self, text):
        if not self.is_text(text):
            self.no()
        place = self.look()[2]
        self.at += 1
        return place

    def name(self):
        kind, text, place = self.look()
        if kind != "name":
            self.no()
        self.at += 1
        return (text, place)

    def program(self):
        for text in ["#", "int", "main", "(", ")", "{"]:
            self.expect(text)
        declared = []
        if self.is_text("int"):
            self.expect("int")
            declared.append(self.name())
            while self.is_text(","):
                self.expect(",")
                declared.append(self.name())
            self.expect(";")
        statements = []
        while not self.is_text("return"):
            statements.append(self.statement(1))
        self.expect("return")
        kind, text, _ = self.look()
        if kind != "number" or text != "0":
            self.no()
        self.at += 1
        self.expect(";")
        self.expect("}")
        if self.at < len(self.tokens):
            self.no()
        return declared, statements

    def statement(self, depth):
        kind, text, place = self.look()
        if kind == "name":
            target = self.name()
            self.expect("=")
            value = self.expression(0)
            self.expect(";")
            return ("assign", target, value)
        if self.is_text("scanf") or self.is_text("printf"):
            self.at += 1
            self.expect("(")
            self.expect('"%d"')
            self.expect(",")
            if text == "scanf":
                self.expect("&")
            target = self.name()
            self.expect(")")
            self.expect(";")
            return (text, target)
        if not (self.is_text("if") or self.is_text("while") or self.is_text("{")):
            self.no()
        if depth == 32:
            self.no(5)
        self.at += 1
        if text == "{":
            inner = [self.statement(depth + 1)]
            while not self.is_text("}"):
                inner.append(self.statement(depth + 1))
            self.expect("}")
            return ("block", inner)
        self.expect("(")
        left = self.expression(0)
        kind, relation, relation_place = self.look()
        if relation not in RELATIONS:
            self.no()
        self.at += 1
        right = self.expression(0)
        self.expect(")")
        condition = (left, relation, relation_place, right)
        body = self.statement(depth + 1)
        if text == "while":
            return ("while", place, condition, body)
        if self.at < len(self.tokens) and self.is_text("else"):
            else_place = self.expect("else")
            return ("else", place, condition, body, else_place, self.statement(depth + 1))
        return ("if", place, condition, body)

    def chain(self, operators, part, first):
        value = first
        while self.at < len(self.tokens) and self.look()[0] == "symbol" and self.look()[1] in operators:
            _, operator, place = self.look()
            self.at += 1
            value = ("operate", operator, place, value, part())
        self.look()
        return value

    def expression(self, open_parens):
        sign = None
        if self.is_text("+") or self.is_text("-"):
            sign = self.look()
            self.at += 1
        first = self.term(open_parens)
        if sign is not None and sign[1] == "-":
            first = ("minus", sign[2], first)
        return self.chain(SUMS, lambda: self.term(open_parens), first)

    def term(self, open_parens):
        return self.chain(PRODUCTS, lambda: self.factor(open_parens), self.factor(open_parens))

    def factor(self, open_parens):
        kind, text, place = self.look()
        if kind == "name":
            self.at += 1
            return ("name", text, place)
        if kind == "number":
            self.at += 1
            return ("number", int(text), place)
        if not self.is_text("("):
            self.no()
        if open_parens == 32:
            self.no(5)
        self.at += 1
        value = self.expression(open_parens + 1)
        self.expect(")")
        return value


def names_in(tree):
    """The names of a statement or expression, with their places."""
    if isinstance(tree, tuple) and len(tree) == 3 and tree[0] == "name":
        yield (tree[1], tree[2])
    elif isinstance(tree, tuple) and len(tree) == 2 and isinstance(tree[0], str) and isinstance(tree[1], int):
        yield tree
    elif isinstance(tree, (tuple, list)):
        for part in tree:
            yield from names_in(part)


def accepted(source):
    tokens = tokens_of(source)
    declared, statements = Parser(tokens, len(source)).program()
    if len(declared) > 64:
        raise Refused(6, declared[64][1])
    seen = set()
    for name, place in declared:
        if name in seen:
            raise Refused(7, place)
        seen.add(name)
    undeclared = [place for name, place in names_in(statements) if name not in seen]
    if undeclared:
        raise Refused(8, min(undeclared))
    cells = {name: number for number, (name, _) in enumerate(declared, 1)}
    code = code_of(statements, cells)
    if len(code) > 4096:
        raise Refused(9, code[4096][2])
    return cells, statements, code


# ---- the published code: (mnemonic, operand or None, place), jumps by labels first


def code_of(statements, cells):
    lines, places = [], {}

    def emit(mnemonic, operand, place):
        lines.append([mnemonic, operand, place])

    def expression(e):
        if e[0] == "name":
            emit("LOAD", cells[e[1]], e[2])
        elif e[0] == "number":
            emit("LIT", e[1], e[2])
        elif e[0] == "minus":
            expression(e[2])
            emit("LIT", -1, e[1])
            emit("MUL", None, e[1])
        else:
            expression(e[3])
            expression(e[4])
            emit({**SUMS, **PRODUCTS}[e[1]], None, e[2])

    def condition(c):
        expression(c[0])
        expression(c[3])
        emit(RELATIONS[c[1]], None, c[2])

    def label(address):
        places[address] = len(lines) + 1

    def statement(s, address):
        if s[0] == "assign":
            expression(s[2])
            emit("STORE", cells[s[1][0]], s[1][1])
        elif s[0] == "scanf":
            emit("READ", cells[s[1][0]], s[1][1])
        elif s[0] == "printf":
            emit("WRITE", cells[s[1][0]], s[1][1])
        elif s[0] == "block":
            for k, inner in enumerate(s[1], 1):
                statement(inner, address + (k,))
        elif s[0] == "if":
            condition(s[2])
            emit("JMC", address, s[1])
            statement(s[3], address + (1,))
            label(address)
        elif s[0] == "else":
            condition(s[2])
            emit("JMC", address, s[1])
            statement(s[3], address + (1,))
            emit("JMP", address + (3,), s[4])
            label(address)
            statement(s[5], address + (2,))
            label(address + (3,))
        else:
            label(address + (2,))
            condition(s[2])
            emit("JMC", address, s[1])
            statement(s[3], address + (1,))
            emit("JMP", address + (2,), s[1])
            label(address)

    for k, s in enumerate(statements, 1):
        statement(s, (1, k))
    return [(m, places[o] if isinstance(o, tuple) else o, p) for m, o, p in lines]


# ---- the meaning of a source with some ticks


class Stopped(Exception):
    pass


class Faulted(Exception):
    def __init__(self, cause, place, pinch=None):
        self.cause, self.place, self.pinch = cause, place, pinch


def strict(x):
    return x if -(2**31) <= x < 2**31 else None


def wrapping(x):
    return (x + 2**31) % 2**32 - 2**31


def clamped(x):
    return max(-(2**15), min(2**15 - 1, x))


class Meaning:
    def __init__(self, cells, narrow, ticks, waiting, room, pinch):
        self.numbers, self.narrow, self.ticks = cells, narrow, ticks
        self.waiting, self.room, self.pinch = list(waiting), room, pinch
        self.cells, self.written, self.gone = {}, [], 0

    def ask(self):
        if self.gone == self.ticks:
            raise Stopped()

    def narrowed(self, x, place):
        self.ask()
        v = self.narrow(x)
        if v is None:
            raise Faulted(23, place)
        self.gone += 1
        return v

    def tick(self):
        self.ask()
        self.gone += 1

    def content(self, name, place):
        self.ask()
        if name not in self.cells:
            raise Faulted(22, place)
        return self.cells[name]

    def expression(self, e):
        if e[0] == "name":
            v = self.content(e[1], e[2])
            self.gone += 1
            return v
        if e[0] == "number":
            return self.narrowed(e[1], e[2])
        if e[0] == "minus":
            v = self.expression(e[2])
            m = self.narrowed(-1, e[1])
            return self.narrowed(v * m, e[1])
        a = self.expression(e[3])
        b = self.expression(e[4])
        self.ask()
        if e[1] in "/%" and b == 0:
            raise Faulted(24, e[2])
        exact = {"+": lambda: a + b, "-": lambda: a - b, "*": lambda: a * b, "/": lambda: a // b, "%": lambda: a - b * (a // b)}
        return self.narrowed(exact[e[1]](), e[2])

    def condition(self, c):
        a = self.expression(c[0])
        b = self.expression(c[3])
        self.tick()
        return {"==": a == b, "!=": a != b, "<": a < b, ">": a > b, "<=": a <= b, ">=": a >= b}[c[1]]

    def statement(self, s):
        if s[0] == "assign":
            v = self.expression(s[2])
            self.tick()
            self.cells[s[1][0]] = v
        elif s[0] == "scanf":
            self.ask()
            if not self.waiting:
                raise Faulted(20, s[1][1])
            x = self.waiting.pop(0)
            self.cells[s[1][0]] = self.narrowed(x, s[1][1])
        elif s[0] == "printf":
            v = self.content(*s[1])
            if self.room == 0:
                raise Faulted(21, s[1][1], self.pinch)
            self.gone += 1
            self.written.append(v)
            self.room -= 1
        elif s[0] == "block":
            for inner in s[1]:
                self.statement(inner)
        elif s[0] == "while":
            while True:
                holds = self.condition(s[2])
                self.tick()
                if not holds:
                    break
                self.statement(s[3])
                self.tick()
        else:
            holds = self.condition(s[2])
            self.tick()
            if holds:
                self.statement(s[3])
                if s[0] == "else":
                    self.tick()
            elif s[0] == "else":
                self.statement(s[5])


def run(source, narrow, lid, ticks, waiting, room, pinch):
    """The report: written, steps, status, fault (cause, place, pinch) or None, waiting, cells by number."""
    cells, statements, _ = accepted(source)
    m = Meaning(cells, narrow, ticks, waiting, room, pinch)
    fault = None
    try:
        for s in statements:
            m.statement(s)
        status = 1
    except Stopped:
        status = 3 if ticks == lid else 0
    except Faulted as f:
        status, fault = 2, (f.cause, f.place, f.pinch)
    contents = {cells[name]: value for name, value in m.cells.items()}
    return m.written, m.gone, status, fault, m.waiting, contents
