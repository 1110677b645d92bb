"""The tokens of a file in the language Hermes, each with its place and its kind, read by the grammar of docs/LANGUAGE.md.

The kinds: comment, string, escape, integer, boolean, operator (a word), function, keyword, sign; and of names, keywords
that stand as parts among them: module, process, type, exception, declared (before a colon), part, value (of an
enumeration) and name (a variable).
"""
import re

PIECE = re.compile(r'(?P<blank>[ \t\r\n]+)|(?P<comment>--[^\n]*)|(?P<string>"(?:[^"\\\n]|\\.)*")|(?P<word>[A-Za-z]\w*)|(?P<integer>\d+)|(?P<sign>:=|<>|<=|>=|[][(){},;:.#=<>+*&-])')
WORD_KINDS = {"boolean": ("true", "false"), "operator": ("and", "div", "mod", "not", "or"), "function": ("length", "size", "text")}
SIGN_OPERATORS = ("=", "<>", "<", "<=", ">", ">=", "+", "-", "*", "&")


class Token:
    """A token: its text, the offset of its first byte, and its kind."""

    def __init__(self, text, start, kind):
        self.text, self.start, self.kind = text, start, kind


def keywords_of(reference):
    """The keywords that the language reference lists."""
    with open(reference, encoding="utf-8") as file:
        return re.search(r"^The keywords are: (.*)\.$", file.read(), re.M)[1].split(", ")


class Reader:
    """Reads the modules of a file, and says of each token which kind it is."""

    def __init__(self, text, keywords):
        self.text, self.keywords, self.all, at = text, keywords, [], 0
        while at < len(text):
            piece = PIECE.match(text, at)
            if not piece:
                raise ValueError(f"no token at {at}")
            if piece.lastgroup != "blank":
                self.all.append(Token(piece[0], at, piece.lastgroup))
            at = piece.end()
        self.tokens = [it for it in self.all if it.kind != "comment"]
        self.at = 0

    def see(self):
        return self.tokens[self.at].text if self.at < len(self.tokens) else ""

    def take(self, *texts):
        """Takes a keyword or a sign, one of these."""
        token = self.tokens[self.at]
        if token.text not in texts:
            raise ValueError(f"{token.text!r} at {token.start}, and not one of {texts}")
        if token.kind == "word":
            token.kind = next((kind for kind, words in WORD_KINDS.items() if token.text in words), "keyword")
        self.at += 1
        return token.text

    def name(self, kind, may_be_keyword=False):
        token = self.tokens[self.at]
        if token.kind != "word" or (token.text in self.keywords and not may_be_keyword):
            raise ValueError(f"{token.text!r} at {token.start}, and not a name")
        token.kind = kind
        self.at += 1

    def part(self, kind="part"):
        self.name(kind, may_be_keyword=True)

    def many(self, one, separator=","):
        one()
        while self.see() == separator:
            self.take(separator)
            one()

    def file(self):
        while self.see():
            self.definitions() if self.see() == "definitions" else self.process()
        return self.all

    def definitions(self):
        self.take("definitions")
        self.name("module")
        self.take("{")
        while self.see() != "}":
            if self.take("type", "exception") == "exception":
                self.name("exception")
            else:
                self.name("type")
                self.take("=")
                self.shape()
            self.take(";")
        self.take("}")

    def shape(self):
        form = self.take("enum", "record", "variant", "table", "inport", "outport", "callmessage")
        if form == "enum":
            self.listed("{", lambda: self.part("value"), "}")
        elif form in ("record", "variant"):
            self.listed("{", self.field, "}")
        elif form == "callmessage":
            self.parameters()
        else:
            self.take("of")
            self.name("type")
            if form == "table":
                self.take("key")
                self.listed("(", self.part, ")")
            if form == "inport" and self.see() == "{":
                self.listed("{", self.fact, "}")

    def listed(self, opening, one, closing):
        self.take(opening)
        self.many(one)
        self.take(closing)

    def field(self):
        self.part("declared")
        self.take(":")
        self.name("type")

    def parameter(self):
        self.take("in", "inout", "out")
        self.field()

    def parameters(self):
        self.take("(")
        if self.see() != ")":
            self.many(self.parameter)
        self.take(")")
        if self.see() == "raises":
            self.take("raises")
            self.listed("(", self.raised, ")")

    def raised(self):
        self.name("exception")
        if self.see() == "{":
            self.listed("{", self.fact, "}")

    def fact(self):
        form = self.take("init", "full", "case")
        self.take("(")
        self.many(self.part, ".")
        if form == "case":
            self.take(",")
            self.part()
        self.take(")")

    def process(self):
        self.take("process")
        self.name("process")
        self.listed("(", self.field, ")")
        self.take("{")
        if self.see() == "var":
            self.take("var")
            self.many(self.field)
            self.take(";")
        self.statements()

    def block(self):
        self.take("{")
        self.statements()

    def statements(self):
        while self.see() != "}":
            self.statement()
        self.take("}")

    def path(self):
        self.name("name")
        while self.see() == ".":
            self.take(".")
            self.part()

    def statement(self):
        form = self.see()
        if form not in self.keywords:
            self.path()
            self.take(":=")
            self.expression()
            self.take(";")
            return
        self.take(form)
        simple = {"move": "to", "unite": "from", "dissolve": "into", "insert": "into", "connect": "to", "send": "to", "receive": "from"}
        if form in simple:
            self.path()
            self.take(simple[form])
            self.path()
        elif form in ("new", "discard", "reveal"):
            self.path()
        elif form in ("case", "for", "select", "if", "while", "try"):
            getattr(self, f"{form}_blocks")()
            return
        elif form != "leave":
            getattr(self, f"{form}_words")()
        self.take(";")

    def wrap_words(self):
        self.path()
        self.take("as")
        self.path()

    def unwrap_words(self):
        self.path()
        self.take("as")
        self.name("type")
        self.take("into")
        self.path()

    def remove_words(self):
        self.path()
        self.take("from")
        self.path()
        self.listed("[", self.primary, "]")

    get_words = remove_words

    def call_words(self):
        self.path()
        self.take("(")
        if self.see() != ")":
            self.many(self.primary)
        self.take(")")

    def return_words(self):
        self.path()
        if self.see() == "exception":
            self.take("exception")
            self.name("exception")

    def create_words(self):
        self.path()
        self.take("of")
        self.name("process")

    def raise_words(self):
        self.name("exception")

    def case_blocks(self):
        self.path()
        self.take("{")
        while self.see() == "when":
            self.take("when")
            self.part()
            self.block()
        self.take("}")

    def for_blocks(self):
        self.path()
        self.take("in")
        self.path()
        self.block()

    def select_blocks(self):
        self.take("{")
        while self.see() == "when":
            self.take("when")
            self.path()
            self.take("receive")
            self.path()
            self.block()
        self.take("}")

    def if_blocks(self):
        self.expression()
        self.block()
        if self.see() == "else":
            self.take("else")
            self.block()

    def while_blocks(self):
        self.expression()
        self.block()

    def try_blocks(self):
        self.block()
        while self.see() == "on":
            self.take("on")
            self.name("exception")
            self.block()

    def expression(self):
        self.operand()
        while self.see() in (*SIGN_OPERATORS, "and", "or", "div", "mod"):
            self.take(self.see())
            self.operand()

    def operand(self):
        while self.see() in ("-", "not"):
            self.take(self.see())
        self.primary()

    def primary(self):
        seen = self.see()
        if seen in ("true", "false", "size", "text", "length"):
            self.take(seen)
        if seen in ("(", "size", "text", "length"):
            self.take("(")
            self.expression()
            self.take(")")
        elif self.tokens[self.at].kind in ("integer", "string"):
            self.at += 1
        elif seen not in ("true", "false"):
            self.path_or_value()

    def path_or_value(self):
        if self.tokens[self.at + 1].text != "#":
            self.path()
            return
        self.name("type")
        self.take("#")
        self.part("value")


def with_escapes(token):
    """A token, and the escapes in it where it is a string."""
    escapes = re.finditer(r"\\.", token.text) if token.kind == "string" else []
    return [token, *(Token(it[0], token.start + it.start(), "escape") for it in escapes)]


def tokens_of(text, keywords):
    """The tokens of a file in order, each escape behind its string."""
    return [it for token in Reader(text, keywords).file() for it in with_escapes(token)]
