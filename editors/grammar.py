"""Colors a file by a grammar of TextMate, as an editor does: line by line, and of the rules that match first the one that is listed first."""
import json
import re


def compiled(pattern):
    """The pattern for Python, which has no \\G: the place is looked at apart."""
    return re.compile(pattern.replace(r"\G", ""), re.ASCII)


class Rule:
    """A rule whose pattern matches, or whose end is looked for once it has begun."""

    def __init__(self, told):
        self.told, self.end = told, None
        self.scope = told.get("contentName")

    def ended_by(self, found):
        """The pattern of the end, where what began the rule stands for its numbers."""
        return compiled(re.sub(r"\\(\d)", lambda it: re.escape(found[int(it[1])]), self.told["end"]))


class Grammar:
    """A grammar, by the file that holds it."""

    def __init__(self, path):
        with open(path, encoding="utf-8") as file:
            self.told = json.load(file)

    def rules(self, listed):
        """The rules of a list, those that it includes too."""
        for it in listed:
            if "include" in it:
                yield from self.rules([self.told["repository"][it["include"][1:]]])
            elif "match" in it or "begin" in it:
                yield it
            else:
                yield from self.rules(it["patterns"])

    def found(self, listed, line, at, anchor, is_first):
        """What matches first from a place on, with its rule."""
        best = None
        for told in self.rules(listed):
            pattern = told.get("match", told.get("begin"))
            if r"\A" in pattern and not is_first:
                continue
            match = compiled(pattern).match(line, at) if r"\G" in pattern else compiled(pattern).search(line, at)
            if r"\G" in pattern and at != anchor:
                continue
            if match and (best is None or match.start() < best[0].start()):
                best = match, told
        return best

    def colors(self, text):
        """The scope of each character of each line of a text."""
        stack, lines = [Rule(self.told)], []
        for number, line in enumerate(text.split("\n")):
            scopes = [""] * len(line)
            self.color_line(line, scopes, stack, number == 0)
            lines.append(scopes)
        return lines

    def color_line(self, line, scopes, stack, is_first):
        """Colors a line. What has begun and not ended stays on the stack."""
        at, anchor = 0, None
        while at <= len(line):
            top = stack[-1]
            ended = top.end.search(line, at) if top.end else None
            best = self.found(top.told["patterns"], line, at, anchor, is_first)
            last = top.told.get("applyEndPatternLast")
            if ended and (not best or ended.start() < best[0].start() or ended.start() == best[0].start() and not last):
                match, told = ended, None
            elif best:
                match, told = best
            else:
                match, told = None, None
            paint(scopes, at, match.start() if match else len(line), top.scope)
            if not match:
                return
            at = match.end()
            if told is None:
                captures(scopes, match, top.told.get("endCaptures"), None)
                stack.pop()
            elif "begin" in told:
                captures(scopes, match, told.get("beginCaptures"), None)
                begun = Rule(told)
                begun.end, anchor = begun.ended_by(match), at
                stack.append(begun)
            else:
                captures(scopes, match, told.get("captures"), told.get("name", top.scope))
                at += match.end() == match.start()


def paint(scopes, begin, end, scope):
    """Gives a scope to what lies between two places."""
    scopes[begin:end] = [scope or ""] * (end - begin)


def captures(scopes, match, told, scope):
    """Gives the scopes of the parts of what matched, and that of the rest."""
    paint(scopes, match.start(), match.end(), scope)
    for number, part in (told or {}).items():
        if match.start(int(number)) >= 0:
            paint(scopes, match.start(int(number)), match.end(int(number)), part["name"])
