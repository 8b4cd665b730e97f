"""The tokens of filters, and of configurations of BIRD."""
import collections
import re

# What a token is, by its text; the first that fits. A byte that begins none is strange.
KINDS = {
    "space": r"[ \t\r\n]+",
    "comment": r"#[^\n]*|/\*.*?\*/",
    "text": r'"[^"\n]*"',
    "net": r"\d+\.\d+\.\d+\.\d+(?:/\d+)?",
    "number": r"0x[0-9A-Fa-f]+|\d+",
    "name": r"[A-Za-z_]\w*",
    "sign": r"&&|\|\||!=|!~|<=|>=|[=<>~!+*/-]",
    "mark": r"\.\.|[][(){};:,.]",
    "strange": r".",
}
TOKEN = re.compile("|".join(f"(?P<{kind}>{pattern})" for kind, pattern in KINDS.items()), re.ASCII | re.DOTALL)

Token = collections.namedtuple("Token", "kind at text")


def tokens(text):
    """The tokens of a text, comments among them, each with its place."""
    return [Token(found.lastgroup, found.start(), found[0]) for found in TOKEN.finditer(text) if found.lastgroup != "space"]


def words(text):
    """The texts of the tokens that mean something: no comments."""
    return [token.text for token in tokens(text) if token.kind != "comment"]
