"""The tokens of a document by graphql-core."""

from graphql import Lexer, Source, TokenKind, parse


def tokens_of(text):
    """The tokens and the comments of a text, by graphql-core's lexer."""
    lexer = Lexer(Source(text))
    while lexer.token.kind is not TokenKind.EOF:
        lexer.advance()
    found, token = [], lexer.token
    while token.prev.kind is not TokenKind.SOF:
        token = token.prev
        found.append(token)
    return found[::-1]


def optional_signs(text):
    """Where the optional signs before a first member begin."""
    found = set()
    for node in parse(text).definitions:
        for members in ("types", "interfaces", "locations"):
            if first := next(iter(getattr(node, members, None) or ()), None):
                token = first.loc.start_token.prev
                while token.kind is TokenKind.COMMENT:
                    token = token.prev
                found |= {token.start} if token.kind in (TokenKind.PIPE, TokenKind.AMP) else set()
    return found


def meaning(text):
    """All that has to stay: of each token but the optional signs its text, and of a block string its value."""
    gone = optional_signs(text)
    words = ((it, it.value if it.kind is TokenKind.BLOCK_STRING else text[it.start : it.end]) for it in tokens_of(text))
    return [(it.kind, word) for it, word in words if it.start not in gone]
