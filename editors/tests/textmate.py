"""An interpreter of the rules of a TextMate grammar that Hermes's grammar uses: match, begin and end, captures, include.

As in editors, a line is read at a time; of the rules in force the one that begins first counts, of several at one place
the first in their order, and the end of the rule that is open before all of them. A rule is in force where its
includes lead to it.
"""
import json
import re


class Grammar:
    def __init__(self, path):
        with open(path, encoding="utf-8") as file:
            self.top = json.load(file)
        self.kept = {}

    def regex(self, text):
        if text not in self.kept:
            self.kept[text] = re.compile(text)
        return self.kept[text]

    def leaves(self, rules):
        """The rules that match or begin something, in order."""
        for rule in rules:
            if "include" in rule:
                yield from self.leaves([self.top["repository"][rule["include"][1:]]])
            elif "match" in rule or "begin" in rule:
                yield rule
            else:
                yield from self.leaves(rule["patterns"])

    def scopes(self, text):
        """The innermost scope of each character of a text, or None."""
        found, stack, offset = [None] * len(text), [], 0
        for line in text.splitlines(keepends=True):
            self.read_line(line.rstrip("\n"), offset, found, stack)
            offset += len(line)
        return found

    def read_line(self, line, offset, found, stack):
        at = 0
        while at <= len(line):
            rule, match = self.first(line, at, stack)
            inside = stack[-1].get("name") if stack else None
            self.paint(found, offset + at, offset + (match.start() if match else len(line)), inside)
            if not match:
                return
            kind = "end" if stack and rule is stack[-1] and match.re is self.regex(rule["end"]) else "begin" if "begin" in rule else "match"
            self.paint(found, offset + match.start(), offset + match.end(), rule.get("name"))
            self.paint_captures(match, rule.get("captures" if kind == "match" else f"{kind}Captures", {}), offset, found)
            if kind == "begin":
                stack.append(rule)
            elif kind == "end":
                stack.pop()
            if match.end() == at and kind == "match":
                at += 1
            elif match.end() == len(line) and kind == "end" and match.start() == match.end():
                return
            at = max(at, match.end())

    def first(self, line, at, stack):
        """The rule that begins first at or behind a place, with its match."""
        rules = stack[-1].get("patterns", []) if stack else self.top["patterns"]
        tries = [(stack[-1], self.regex(stack[-1]["end"]))] if stack else []
        tries += [(rule, self.regex(rule.get("match") or rule["begin"])) for rule in self.leaves(rules)]
        best = (None, None)
        for rule, regex in tries:
            match = regex.search(line, at)
            if match and (best[1] is None or match.start() < best[1].start()):
                best = (rule, match)
        return best

    def paint_captures(self, match, captures, offset, found):
        for number, capture in captures.items():
            if match.start(int(number)) >= 0:
                self.paint(found, offset + match.start(int(number)), offset + match.end(int(number)), capture["name"])

    @staticmethod
    def paint(found, start, end, scope):
        if scope:
            found[start:end] = [scope] * (end - start)
