"""Writes random documents of TOML 1.1, and notes what stands where."""

import functools

from documents import Lines, Node

# How deep values are.
DEPTH = 4

BLANKS = [" ", "  ", "\t", " \t "]
BARE = ["a", "b", "c", "x-y", "z_9", "A", "0", "17", "1e5", "true", "nan", "-", "1979-05-27", "key"]
# Keys between quotes: what stands between them, and how they read.
BASIC_KEYS = [
    *[("a", "a"), ("b", "b"), ("", ""), ("a.b", "a.b"), ("x y", "x y"), ("é", "é"), ("€ 😀", "€ 😀"), ("#", "#")],
    *[("\\u0061", "a"), ("\\\"", '"'), ("\\\\", "\\"), ("=", "="), ("]", "]"), ("\\U0001F600", "😀"), ("'", "'")],
]
LITERAL_KEYS = ["a", "c", "", "b.c", "é", "😀", "\\u0061", "[a]", '"', "# a", " ", "e\u0301", "="]
ATOMS = [
    *["true", "false", "0", "7", "-1", "+5", "1_000", "0xff", "0o17", "0b1010", "9223372036854775807"],
    *["1.5", "-0.0", "6e10", "3.14e-2", "inf", "-nan", "+inf", "1979-05-27", "07:32:00", "07:32", "07:32:00.25"],
    *["1979-05-27T07:32:00", "1979-05-27 07:32:00Z", "1979-05-27T07:32:00.5-07:00", "1979-05-27 07:32"],
]
# What the texts of strings are made of.
PIECES = ["a", "b = 1", " ", "#", "]", "[", ",", "}", "{", "=", "é", "€", "😀", "e\u0301", "\u2028", "\u0085", "\t", "1"]
ESCAPES = ["\\n", "\\t", '\\"', "\\\\", "\\u00e9", "\\U0001F600", "\\x41", "\\e"]
COMMENTS = ["", " a = 1", " [a]", " é€😀", "#", ' "', " '''", " ]", " }", "\ta,"]


@functools.cache
def forms_of(name):
    """How a key may be written."""
    forms = []
    if name and all(c.isascii() and (c.isalnum() or c in "-_") for c in name):
        forms += [name, name]
    if "'" not in name:
        forms.append(f"'{name}'")
    if '"' not in name and "\\" not in name:
        forms.append(f'"{name}"')
    return [*forms, '"' + "".join(f"\\U{ord(c):08x}" for c in name) + '"']


class Writer(Lines):
    """Writes a document that `toml` reads, and notes what stands where."""

    # How many statements a document has at most.
    STATEMENTS = 25

    def __init__(self, source):
        self.random = source
        self.pieces = []
        self.at = 0
        self.ends = self.choice([["\n"], ["\n"], ["\r\n"], ["\n", "\r\n"]])
        self.root = self.section = self.node("header")
        self.write_document()
        self.text = "".join(self.pieces)
        super().__init__(self.text)

    def chance(self, part):
        return self.random.random() < part

    def choice(self, values):
        return values[int(self.random.random() * len(values))]

    def node(self, kind, above=None, key=None):
        node = Node(kind, self, key)
        node.depth = above.depth + 1 if above else 0
        return node

    def put(self, text):
        self.pieces.append(text)
        self.at += len(text)

    def spanned(self, write, *arguments):
        """Writes something, and says where it stands."""
        begin = self.at
        write(*arguments)
        return begin, self.at

    def blank(self):
        if self.chance(0.67):
            self.put(self.choice(BLANKS))

    def end_line(self):
        self.put(self.choice(self.ends))

    def comment(self):
        self.put("#" + self.choice(COMMENTS))

    def blank_lines(self, part):
        """White space, comments and ends of lines, as they may stand between what an array holds."""
        self.blank()
        while self.chance(part):
            if self.chance(0.4):
                self.comment()
            self.end_line()
            self.blank()

    # Keys.

    def some_key(self, table):
        """How a key of a table is written, and how it reads."""
        kind = self.random.random()
        if kind < 0.6:
            name = self.choice(BARE)
            return name, name
        if kind < 0.8:
            written, name = self.choice(BASIC_KEYS)
            return f'"{written}"', name
        name = self.choice(LITERAL_KEYS)
        return f"'{name}'", name

    def written_again(self, name):
        """A key that is there, written in one of its forms."""
        return self.choice(forms_of(name))

    def put_parts(self, parts):
        """Writes the parts of a key, and says where each stands."""
        spans = []
        for at, written in enumerate(parts):
            if at:
                self.blank()
                self.put(".")
                self.blank()
            spans.append(self.spanned(self.put, written))
        return spans

    # Values.

    def some_kind(self, above, depth):
        """0 for an array, 1 for a table, less than 5 for a text."""
        return self.random.randrange(8) if depth else 3

    def value(self, above, depth):
        """Writes a value below a node, and gives what stands there."""
        kind = self.some_kind(above, depth)
        if kind == 0:
            node, write = self.node("array", above), [self.array, depth - 1]
        elif kind == 1:
            node, write = self.node("inline", above), [self.inline_table, depth - 1]
        else:
            node, write = self.node("scalar", above), [self.scalar, kind]
        node.value_at = self.spanned(write[0], node, write[1])
        return node

    def scalar(self, _, kind):
        """Writes a text, or another value that is no array or table."""
        if kind < 5:
            self.string()
        else:
            self.put(self.choice(ATOMS))

    def string(self):
        escape = self.choice(ESCAPES)
        others = {
            "'": [],
            '"': [escape],
            "'''": ["\n", "\r\n", "''x", '"""'],
            '"""': ["\n", "\r\n", "\\\n", "\\ \r\n \n\t", '""x', "'''", escape],
        }
        quote = self.choice([*others])
        pieces = [self.choice(PIECES) for _ in range(self.random.randrange(4))]
        self.put(quote)
        for piece in pieces:
            self.put(self.choice([piece, *others[quote]]))
        self.put(quote + quote[0] * (self.random.randrange(3) if pieces and quote[1:] else 0))

    def array(self, node, depth):
        self.put("[")
        part = self.choice([0, 0, 0.3, 0.6])
        self.blank_lines(part)
        count = self.random.randrange(4)
        for index in range(count):
            begin = len(self.pieces)
            node.below[index] = self.value(node, depth)
            self.blank_lines(part)
            if index < count - 1 or self.chance(0.3):
                self.put(",")
                if part and self.chance(0.3):
                    self.comment_of("".join(self.pieces[begin:]))
                self.blank_lines(part)
        self.put("]")

    def comment_of(self, written):
        """A comment that holds what was written, where it is of one line."""
        if not set("\r\n") & set(written):
            self.put(f"# {written}")
            self.end_line()

    def inline_table(self, node, depth):
        self.put("{")
        part = self.choice([0, 0, 0.3])
        self.blank_lines(part)
        count = self.random.randrange(4)
        while count and self.pair(node, depth):
            count -= 1
            self.blank_lines(part)
            if count == 0 and self.chance(0.7):
                break
            self.put(",")
            self.blank_lines(part)
        self.put("}")

    # Statements.

    def new_key(self, table):
        """A key that the table lacks: how it is written, and how it reads. None where none was found."""
        for _ in range(8):
            written, name = self.some_key(table)
            if name not in table.below:
                return written, name
        return None

    def key_through(self, table, there, part):
        """One of these keys of the table, in this part of the cases, or else a new one."""
        if there and self.chance(part):
            name = self.choice(there)
            return self.written_again(name), name
        return self.new_key(table)

    def through(self, table, kind, kinds, parts):
        """Keys that lead through tables of these kinds, or make some: how they are written, and the tables."""
        written, made = [], []
        while self.chance(parts[0]) and len(written) < 4:
            there = [name for name, node in table.below.items() if node.kind in kinds]
            found = self.key_through(table, there, parts[1])
            if not found:
                break
            written.append(found[0])
            node = table.below.get(found[1]) or self.node(kind, table)
            made.append((table, found[1], node))
            table = self.inside(node)
        return table, written, made

    def inside(self, node):
        """The table into which a key goes: of an array of tables, its last element."""
        return node.below[len(node.below) - 1] if node.kind == "tables" else node

    def put_keys(self, written, made):
        """Writes keys, and says where the last stands. A table that is there keeps the place of its first key."""
        spans = self.put_parts(written)
        for span, (table, name, node) in zip(spans, made):
            node.key_at = node.key_at or span
            table.below[name] = node
        return spans[-1]

    def pair(self, table, depth):
        """Writes a pair of a table, with a dotted key or not. Says whether it did."""
        table, front, made = self.through(table, "dotted", ("dotted", "implicit"), (0.3, 0.7))
        found = self.new_key(table)
        if not found:
            return False
        span = self.put_keys([*front, found[0]], made)
        for _, _, node in made:
            node.kind = "dotted"
        self.blank()
        self.put("=")
        self.blank()
        node = table.below[found[1]] = self.value(table, depth)
        node.key_at = span
        return True

    def header(self):
        """Writes a header. Says whether it did."""
        kind, brackets = ("tables", 2) if self.chance(0.45) else ("implicit", 1)
        kinds = ("implicit", "dotted", "header", "tables")
        table, front, made = self.through(self.root, "implicit", kinds, (0.55, 0.8))
        again = [name for name, node in table.below.items() if node.kind == kind]
        found = self.key_through(table, again, 0.6)
        if not found:
            return False
        self.put("[" * brackets)
        self.blank()
        span = self.put_keys([*front, found[0]], made)
        self.blank()
        self.put("]" * brackets)
        node = table.below.setdefault(found[1], self.node(kind, table, span))
        if kind == "implicit":
            node.kind, self.section = "header", node
        else:
            self.section = node.below[len(node.below)] = self.node("header", table, span)
        return True

    def write_document(self):
        if self.chance(0.1):
            self.put("\ufeff")
        count = self.random.randrange(self.STATEMENTS + 1)
        for _ in range(count):
            self.blank_lines(0.2)
            is_written = self.header() if self.chance(0.35) else self.pair(self.section, DEPTH)
            if is_written:
                self.blank()
            if self.chance(0.15):
                self.comment()
            self.end_line()
        self.write_end()

    def write_end(self):
        """The last line keeps its end, or not, and may be followed by others."""
        if self.pieces and self.pieces[-1] in self.ends and self.chance(0.3):
            self.pieces.pop()
        elif self.chance(0.2):
            self.comment()
