"""The code of `.rt` files as trees of tokens, for tools that look at code: without comments, clauses and ghosts.

A text is the one token `""`. What stands between two brackets is a group.
"""

import collections
import glob
import os
import re

TOKEN = re.compile(
    r"""(?P<skip>//[^\n]*|/\*.*?\*/|\s+)
      | (?P<text>b?r(?P<hashes>\#*)".*?"(?P=hashes)|b?"(?:\\.|[^"\\])*"|b?'(?:\\[^']+|[^\\'\n])')
      | (?P<word>'?[^\W\d]\w*|\d\w*(?:\.\d\w*)?|::|->|=>|==|!=|<=|>=|&&|\|\||\.\.=|\.\.|\S)""",
    re.VERBOSE | re.DOTALL,
)
CLOSING = {"(": ")", "[": "]", "{": "}"}

Token = collections.namedtuple("Token", "text line")
Group = collections.namedtuple("Group", "text nodes line")


def tokens(source):
    line = 1
    for found in TOKEN.finditer(source):
        if not found["skip"]:
            yield Token('""' if found["text"] else found["word"], line)
        line += found[0].count("\n")


def tree(stream, closing=None):
    """The nodes up to the closing bracket."""
    nodes = []
    for token in stream:
        if token.text == closing:
            break
        if token.text in CLOSING:
            nodes.append(Group(token.text, tree(stream, CLOSING[token.text]), token.line))
        else:
            nodes.append(token)
    return nodes


def is_group(node, bracket="{"):
    return isinstance(node, Group) and node.text == bracket


def is_word(node):
    return isinstance(node, Token) and (node.text[0].isalpha() or node.text[0] == "_")


def at(nodes, place):
    """The text at this place, and nothing outside."""
    return nodes[place].text if 0 <= place < len(nodes) else ""


def first(nodes, start, found):
    """The first place from `start` on whose node is found, else the end."""
    return next((i for i in range(start, len(nodes)) if found(nodes[i])), len(nodes))


def first_of(nodes, start, *texts):
    """The first place from `start` on of one of these texts, else the end."""
    return first(nodes, start, lambda node: node.text in texts)


def parts(nodes, mark):
    """The parts between the marks, without empty ones."""
    found, start = [], 0
    while start < len(nodes):
        end = first_of(nodes, start, mark)
        found.append(nodes[start:end])
        start = end + 1
    return [part for part in found if part]


def angles_end(nodes, start):
    """The place behind the `>` that closes the `<` at `start`."""
    depth = 0
    for i in range(start, len(nodes)):
        depth += {"<": 1, ">": -1}.get(nodes[i].text, 0)
        if depth == 0:
            return i + 1
    return len(nodes)


def last_name(nodes):
    """The last word of the path at the front, and the place behind the path."""
    i = first(nodes, 0, lambda node: node.text not in ("&", "mut", "ref"))
    if i == len(nodes) or not is_word(nodes[i]):
        return "", i
    while at(nodes, i + 1) == "::" and i + 2 < len(nodes) and is_word(nodes[i + 2]):
        i += 2
    return nodes[i].text, i + 1


def without_ghosts(nodes):
    """The nodes without clauses and ghosts, at all depths."""
    kept, i = [], 0
    while i < len(nodes):
        word, node = nodes[i].text, nodes[i]
        clause = i + 2 if i + 1 < len(nodes) and is_word(nodes[i + 1]) else i + 1
        if word in ("requires", "ensures") and at(nodes, clause) == "{":
            i = clause + 1
        elif word == "ghost" and at(nodes, i + 1) == "use":
            i = first_of(nodes, i, ";") + 1
        elif word == "ghost":
            i = first_of(nodes, i, ";", "{")
            i += 2 if at(nodes, i) == "{" and at(nodes, i + 1) in (";", ",") else 1
        else:
            kept.append(node._replace(nodes=without_ghosts(node.nodes)) if isinstance(node, Group) else node)
            i += 1
    return kept


def implemented(header):
    """The name of the type that an `impl` with this header is for."""
    start = angles_end(header, 0) if at(header, 0) == "<" else 0
    of = first_of(header, start, "for")
    return last_name(header[of + 1 :] if of < len(header) else header[start:])[0]


def functions(nodes, owner=""):
    """Each function as (the type or trait that it belongs to, its name, its parameters, the type of its answer)."""
    for i, node in enumerate(nodes):
        end = first_of(nodes, i, "{", ";")
        if node.text in ("impl", "trait", "mod") and at(nodes, end) == "{":
            of = {"impl": implemented(nodes[i + 1 : end]), "trait": at(nodes, i + 1), "mod": ""}[node.text]
            yield from functions(nodes[end].nodes, of)
        elif node.text == "fn" and i + 1 < len(nodes) and is_word(nodes[i + 1]):
            arrow = first_of(nodes, i, "->", "{", ";")
            given = next((node.nodes for node in reversed(nodes[i:arrow]) if is_group(node, "(")), [])
            yield owner, nodes[i + 1].text, given, nodes[arrow + 1 : first_of(nodes, arrow, "where", "{", ";")]


def is_test(attribute):
    """Whether what stands between an attribute's brackets is `test` or `cfg(test)`."""
    words = [[word.text for word in node.nodes] if isinstance(node, Group) else node.text for node in attribute]
    return words in (["test"], ["cfg", ["test"]])


def test_modules(path, nodes):
    """The files, without `.rt`, of the modules that a file declares for its tests."""
    folder, name = os.path.split(path)
    if name not in ("lib.rt", "main.rt", "mod.rt"):
        folder = os.path.join(folder, name[: -len(".rt")])
    for i, node in enumerate(nodes):
        if is_group(node, "[") and is_test(node.nodes) and at(nodes, i + 1) == "mod" and at(nodes, i + 3) == ";":
            yield os.path.join(folder, nodes[i + 2].text)


def read(path):
    with open(path, encoding="utf-8") as file:
        return without_ghosts(tree(tokens(file.read())))


def code():
    """The code of all crates below this folder, without the files of tests: path and tree."""
    trees = {path: read(path) for path in sorted(glob.glob("crates/*/src/**/*.rt", recursive=True))}
    tests = [module for path, nodes in trees.items() for module in test_modules(path, nodes)]
    of_tests = {path for path in trees for test in tests if path == test + ".rt" or path.startswith(test + "/")}
    return {path: nodes for path, nodes in trees.items() if path not in of_tests}
