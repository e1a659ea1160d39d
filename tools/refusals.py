"""An edit of the repository, and where and by what the prover refuses it. tools/edits, trial/run and trial/definitions/run stand on it."""
import os
import re

ANTT = re.compile(r"^(\S+\.(?:antt|rt)):(\d+):\d+: error: (.*)$")
COMPILER = re.compile(r"^(\S+\.rt):(\d+):\d+: error\[([\w-]+)\]: (.*)$")
SEARCHED = re.compile(r"^note: (\S+\.rt):(\d+):\d+: it is not proved that (.*?) \(`([^`]+)`\)(.*)$")
NOT_COVERED = re.compile(r"^fn (\S+): not proved; (.*?): (\S+\.rt):(\d+):\d+: (.*)$")
DECLARED = re.compile(r"^`([^`]+)`: (.*)$", re.S)
FOLLOWS = re.compile(r"^`[^`]*` was not admitted|^\d+ declarations? that depends? on `")
GOAL = r"(?:Answers|Invariants)\.antt$"

# What a message says, by its words: the first that fits. `fact` is a statement that no longer holds; what is in no line is unknown.
WORDS = [
    ("goal gone", r"^`goal\.[^`\n]+`: module `[^`\n]*` has no "),
    ("shape", r"^record `|^this pattern needs a function |^a dimension \(|^an? [^\n]* is expected here"),
    ("name", r"^`[^`\n]*` is not in scope|^(`[^`\n]*`: )?module `[^`\n]*` has no |^`[^`\n]*` is no name"),
    ("shape", r"where one has `mir\.Syntax\.|the other has `mir\.Syntax\.|where one has `\S*Lts\.After-|the other has `\S*Lts\.After-"),
    ("fact", r"^computed as far as they go, the two (types|sides|values) (first differ|differ only|are) "),
    ("fact", r"^as printed, the two (types|sides|values) (first differ|differ only) "),
    ("fact", r"^expected type `|^on the face `"),
    ("fact", r"^`rw`: no occurrence of the path's left endpoint|^give a proof of that as the last argument, `rw L t`"),
    ("fact", r"^list the missing equation with its arguments|^`rw`: neither the goal nor the list settles argument "),
    ("fact", r"^`omega`: the (goal|part `[^`]*` of the goal) does not follow"),
    ("fact", r"^`search`: no proof of |^`cc`: |^`grind`: |^it is not proved that "),
]
WORDS = [(kind, re.compile(words, re.S)) for kind, words in WORDS]

# What a goal asks, by its name; the others ask that the code is safe and ends.
ASKS = [("result", r"returns(-.+)?"), ("invariant", r".+-(init|preserved)(-.+)?"), ("requires", r".+-requires(-.+)?")]

# The kinds that say nothing of what the edited program does.
EMPTY = {
    "compiler": "it is no program",
    "not covered": "the prover doesn't cover the function",
    "name": "a name is out of scope",
    "contract": "a contract is no longer one",
    "goal gone": "a goal is gone",
    "shape": "the proof no longer fits the code's shape",
    "unknown": "the message is of no known kind",
}


class Edit:
    """The replacements (file, times, old, new) of an .edit, and its other lines `word: text`, as `why two: ..`."""

    def __init__(self, text):
        self.pairs, self.said, file, times, old = [], {}, None, 1, None
        for line in text.split("\n"):
            word, colon, rest = line.partition(":")
            rest = rest[1:] if rest.startswith(" ") else rest
            if word == "file" and colon:
                file = rest
            elif word == "times" and rest.isdigit():
                times = int(rest)
            elif word == "old" and colon:
                old = rest
            elif word == "new" and colon:
                self.pairs.append((file, times, old, rest))
                times, old = 1, None
            elif colon:
                self.said.setdefault(word, rest.strip())

    def applied(self, read):
        """The edited files, by name, from a function that reads one; or a sentence that says why it can't be."""
        made = {}
        for file, times, old, new in self.pairs:
            if file is None or not old:
                return "a `new:` has no `file:` or no `old:` before it"
            text = made.get(file) or read(file)
            if text is None:
                return f"there is no {file}"
            if text.count(old) != times:
                return f"an `old:` stands {text.count(old)} times in {file}"
            made[file] = text.replace(old, new)
        return made or "it has no `old:` and `new:`"


class Refusal:
    """An error of a log: its place, the declaration, the goal that this answers (or none), the kind and the message."""

    def __init__(self, file, line, name, goal, kind, message):
        self.file, self.line, self.name, self.goal, self.kind, self.message = file, line, name, goal, kind, message

    def function(self):
        """Whether it stands at a function, not in a law."""
        return self.file.startswith("src/") or bool(re.search(GOAL, self.file))

    def asks(self):
        """What it asks: the result, a loop's invariant, a call's requires, or that the code is safe and ends."""
        if self.goal is None:
            return "law" if not self.function() else "helper" if re.search(GOAL, self.file) else "-"
        for asks, goals in ASKS:
            if re.fullmatch(goals, self.goal):
                return asks
        return "safety"


def kind_of(file, message):
    for kind, words in WORDS:
        if words.search(message):
            break
    else:
        kind = "unknown"
    if kind in ("goal gone", "name"):
        return kind
    if file.startswith("src/"):
        return "contract"
    return "shape" if file.endswith("/Invariants.antt") else kind


def goal_of(read, file, name):
    """The goal that a declaration of an Answers.antt or an Invariants.antt answers."""
    text = read(file) if re.search(GOAL, file) else None
    return name if re.search(r"^(?:abbrev )?(?:pub )?" + re.escape(name) + r" :\s+goal\.", text or "", re.M) else None


def refusals(log, below, read):
    """The errors of a log in its order, without those that only follow from another; but what isn't covered comes first, since
    the rest follows from it. Places are said from the folder `below` on, the last parts of its path."""
    found, uncovered, lines = [], [], log.split("\n")

    def place(path):
        path = path.rpartition(below + "/")[2]
        return path[2:] if path.startswith("./") else path

    for at, line in enumerate(lines):
        if said := NOT_COVERED.match(line):
            name, why, file, number, what = said.groups()
            uncovered.append(Refusal(place(file), int(number), name, None, "not covered", f"{why}: {what}"))
        elif said := COMPILER.match(line):
            file, number, name, what = said.groups()
            found.append(Refusal(place(file), int(number), name, None, "compiler", what))
        elif said := SEARCHED.match(line):
            file, number, what, goal, rest = said.groups()
            found.append(Refusal(place(file), int(number), goal, goal, "fact", "it is not proved that " + what + rest))
        elif said := ANTT.match(line):
            file, number, what = place(said.group(1)), int(said.group(2)), whole(lines, at, said.group(3))
            named = DECLARED.match(what)
            name, message = named.groups() if named else ("", what)
            if not FOLLOWS.match(message):
                found.append(Refusal(file, number, name, goal_of(read, file, name), kind_of(file, message), message))
    return uncovered + found


def whole(lines, at, first):
    """A message with its further lines, which stand two places in."""
    message = [first]
    for more in lines[at + 1:]:
        if not more.startswith("  "):
            break
        message.append(more.strip())
    return "\n".join(message)


def head(message, length=110):
    line = " ".join(message.split("\n")[0].split())
    return line if len(line) <= length else line[:length - 2] + ".."


def reader(folder):
    """A function that reads a file of the folder; none if it isn't there."""

    def read(file):
        path = os.path.join(folder, file)
        return open(path, encoding="utf-8").read() if os.path.isfile(path) else None

    return read
