"""The words of view's sentences and pages: those of the field, and none of the dialect that they replaced."""

import ast
import os
import re
import unittest

HERE = os.path.dirname(os.path.abspath(__file__))
VIEW = os.path.dirname(HERE)
# What no sentence has any more. (`cold`, `useful` and `useless` are fields of what `misses` prints.)
OLD = re.compile(
    r"\b(?:useless|useful|fought|fights?|fighting|told|tells?|takings?|taken|takes the line|many harts|counted so|to do|for nothing|"
    r"table back|lines of their own|line of its own|words of their own|by 1000|turns? of|in time|behind|apart|otherwise counted|"
    r"isn't worth doing|a bound and no estimate|lose no line|as data lies|wants?|stands? twice)\b"
)


def sources(*ends):
    for folder, _, names in os.walk(VIEW):
        if not folder.startswith(HERE):
            yield from (os.path.join(folder, it) for it in sorted(names) if it.endswith(ends))


def sentences(tree):
    """The texts of a module that have a blank, and no docstring: those of an f-string as one."""
    own = (ast.Module, ast.ClassDef, ast.FunctionDef, ast.AsyncFunctionDef)
    documented = [it for it in ast.walk(tree) if isinstance(it, own) and it.body]
    docs = {id(it.body[0].value) for it in documented if isinstance(it.body[0], ast.Expr)}
    parts = {
        id(part)
        for node in ast.walk(tree)
        if isinstance(node, ast.JoinedStr)
        for part in node.values
        if isinstance(part, ast.Constant)
    }
    for node in ast.walk(tree):
        if isinstance(node, ast.JoinedStr):
            text = "".join(
                str(part.value) if isinstance(part, ast.Constant) else "X" for part in node.values
            )
        elif isinstance(node, ast.Constant) and id(node) not in docs | parts:
            text = node.value
        else:
            continue
        if isinstance(text, str) and re.search(r"[a-z] [a-z]", text):
            yield node.lineno, text


class Words(unittest.TestCase):
    def test_sentences(self):
        found, many = [], 0
        for path in sources(".py"):
            with open(path, encoding="utf-8") as file:
                tree = ast.parse(file.read())
            for line, text in sentences(tree):
                many += 1
                # (patterns of what the program prints have backslashes)
                if OLD.search(text) and "\\" not in text:
                    found.append(f"{os.path.basename(path)}:{line}: {text}")
        self.assertGreater(many, 200)
        self.assertEqual(found, [])

    def test_pages(self):
        for path in sources(".html"):
            with open(path, encoding="utf-8") as file:
                text = re.sub(
                    r"(?s)<style>.*?</style>|\{%.*?%\}|\{\{.*?\}\}|<[^>]*>", " ", file.read()
                )
            self.assertEqual(OLD.findall(text), [], path)

    def test_the_schema(self):
        with open(next(it for it in sources("schema.json")), encoding="utf-8") as file:
            self.assertEqual(OLD.findall(file.read()), [])

    def test_that_old_words_are_found(self):
        text = 'def f(x):\n    """It is told."""\n    return f"{x} useless misses"\nA = "fought over"\n'
        own = [line for line, it in sentences(ast.parse(text)) if OLD.search(it)]
        self.assertEqual(own, [4, 3])


if __name__ == "__main__":
    unittest.main()
