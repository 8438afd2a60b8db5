"""What a check says of a mutant, and the word for it."""

import re

# A file is named below the crate's folder, or below `../CRATE/`.

# what antt says of a goal that it found values for: they were checked, so that no answer closes it
FALSE = "allow values at which this goal is false"
GOAL = re.compile(r"(?:note: |error: )?(?:\./|\.\./\w+/)?(src/\S+?):(\d+):\d+: (?:it is not proved that (.*?)|`search` found no proof)"
                  r" \(`([^`]+)`\)(.*)")
# what it says of an `ensures` whose search ended at the limit of its steps, and so left it open
STOPPED = re.compile(r"note: what antt said of a `search` .*?: (?:\./|\.\./\w+/)?(src/\S+?):(\d+):\d+: error: `(returns-[^`]+)`: .*stopped at")
ANSWER = re.compile(r"(?:so far: )?(?:error: )?(?:\./|\.\./\w+/)?(proofs/\S+\.antt):\d+:\d+: error: (?:`([^`]+)`: )?(.*)")
# what says that a function waits for one that it calls
UNREAD = re.compile(r"(?:note: )?(?:\./|\.\./\w+/)?(proofs/\S+\.antt) is not checked until what its function calls")
UNTRIED = re.compile(r"note: `search` has not tried the goals of `([^`]+)`, which wait for a callee's proof")
# what says that a proof names something that is no longer there
LOST_NAME = re.compile(r"has no field|is not in scope|has no `|was not admitted")
# what says that the checker has no proof rules for the form of a body, whatever it means
FORM = re.compile(r"\[(?:borrow-|unsupported-|linear-)|not covered|not supported")
UNCOVERED = re.compile(r"fn (\S+?): no proof: .*the borrow checker does not cover this function yet: (?:\./|\.\./\w+/)?(src/\S+?):(\d+)")
SOURCE = re.compile(r"(?:error: )?(?:\./|\.\./\w+/)?(?:src|specs)/\S+?:\d+:\d+: error")
DIFFERENCE = re.compile(r"one has `(.*?)`\s*\(expected\).*?the other has `(.*?)`\s*\(found\)", re.S)


class Goal:
    """An open goal: the clause that it is of, or what else, and whether it is false at values."""

    def __init__(self, what, name, rest):
        what = what or "the invariant of the value's type holds"
        self.name = name
        self.false = FALSE in rest
        self.of_loop = "loop" in what
        label = re.search(r"-clause-([\w-]+)$", name)
        if what.startswith("what the function ensures"):
            self.clause = f"ensures {label[1]}" if label else "ensures"
        else:
            self.clause = what.replace(" holds at this call", "").removeprefix("what ").removesuffix(" holds")


class Told:
    """What is told of some functions, of all where `places` is None: their open goals, the answers that don't fit as (file, name,
    why), no name where more of the file may not have been read, and whether they wait for another to be proved, so that nothing is
    told."""

    def __init__(self, said, places):
        self.goals = []
        self.answers = []
        self.waits = any(waits(places, line) for line in said)
        self.uncovered = next((line for line in said if is_uncovered(places, line)), None)
        for number, line in enumerate(said):
            goal, answer, stopped = GOAL.match(line), ANSWER.match(line), STOPPED.match(line)
            if goal and is_in(places, goal[1], int(goal[2])):
                self.goals.append(Goal(goal[3], goal[4], goal[5]))
            elif stopped and is_in(places, stopped[1], int(stopped[2])):
                self.goals.append(Goal("what the function ensures", stopped[3], ""))
            elif answer and is_of(places, answer[1]):
                self.answers.append((answer[1], answer[2], "\n".join(said[number:number + 6])))

    def false_goal(self):
        """A goal that is false at values, and not an invariant of the proof's own."""
        return next((it for it in self.goals if it.false and not it.of_loop), None)

    def clause(self):
        """A clause that is open."""
        return next((it for it in self.goals if not it.of_loop), None)

    def searched(self):
        """The open goals that were searched for, and not only lack an answer that was rejected."""
        rejected = {name for _, name, _ in self.answers}
        return [] if None in rejected else [it for it in self.goals if it.name not in rejected]


def is_in(places, file, line):
    """Whether the line is one of the functions; of anything, where no place is asked for."""
    return places is None or any(file == place[0] and place[2] <= line <= place[3] for place in places)


def is_uncovered(places, line):
    """Whether the line says that the borrow checker has no rules for a form that stands in one of the functions."""
    found = UNCOVERED.match(line)
    return bool(found) and is_in(places, found[2], int(found[3]))


def paths_of(place):
    """Where the function stands in the crate, as patterns of a path: below its file's module, or below its type's, wherever that is."""
    module = re.sub(r"^src/|\.rt$", "", place[0])
    return [rf"{module}/(?:.*/)?{place[1]}", *([rf"(?:.*/)?{place[4]}/{place[1]}"] if place[4] else [])]


def is_of(places, file):
    """Whether the proof file is one of the functions'."""
    return places is None or any(
        re.fullmatch(rf"proofs/{path}/(?:.*/)?\w+\.antt", file) for place in places for path in paths_of(place))


def waits(places, line):
    """Whether the line says that one of the functions waits for one that it calls."""
    unread, untried = UNREAD.match(line), UNTRIED.match(line)
    if unread:
        return is_of(places, unread[1])
    if not untried or places is None:
        return bool(untried)
    name = untried[1].partition("::")[2].replace("::", "/")
    return any(re.fullmatch(path, name) for place in places for path in paths_of(place))


def without(text, names):
    """An answers file without the declarations of these names; without any, and what they import, where a name is None."""
    kept, leaves = [], False
    for line in text.split("\n"):
        if line and line[0] not in " }":
            head = re.match(r"(?:abbrev |unfoldable )?(?:pub )?([^\s:]+) ", line)
            if line.startswith(("mod ", "--")):
                leaves = False
            elif line.startswith("use "):
                leaves = None in names
            elif head:
                leaves = None in names or head[1] in names
        if not leaves:
            kept.append(line)
    return "\n".join(kept)


def is_unread(said):
    """Why the check came to no goal: the word for it, None where it did."""
    if any(line.startswith(("logic=", "only=")) for line in said):
        return None
    errors = [line for line in said if SOURCE.match(line)]
    if errors and all(FORM.search(line) for line in errors):
        return "form not covered  ", errors[0][:160]
    return "no longer applies ", (errors or said[-1:] or [""])[0][:160]


def difference(why):
    """What the kept answer shows and the goal asks, where the check tells it in few words."""
    computed = why[why.find("computed as far"):] if "computed as far" in why else why
    found = DIFFERENCE.search(computed)
    if not found or max(len(found[1]), len(found[2])) > 80:
        return "the kept answer doesn't fit"
    return f"the goal has {found[1]} where the kept answer has {found[2]}"


def names(values, clause):
    """Whether a reader's values are for this clause. A goal that is of the only `ensures` doesn't name it."""
    return values.startswith(f"{clause}:") or clause == "ensures" and values.startswith("ensures ")


def refusal(edit, kept, aside):
    """What shows that the edit is refused; None where nothing does yet."""
    false = kept.false_goal() or aside.false_goal()
    if false:
        return f"{false.clause} ({false.name}) is false at values that the facts there allow"
    searched = aside.searched() if edit.values else []
    if any(names(edit.values, it.clause) for it in searched):
        return f"{edit.values} (by its reader; the check leaves it open)"
    if any(it.of_loop for it in searched):
        return f"{edit.values} (by its reader; the check leaves a loop's invariant open)"
    return None


def verdict(edit, kept, aside):
    """The word for an edit, and what it rests on. `kept` is what was told with the answers as they are, `aside` what was told
    with those set aside that don't fit."""
    why = refusal(edit, kept, aside)
    if why:
        return "refused           ", why
    if kept.uncovered:
        return "form not covered  ", kept.uncovered[:160]
    open_clause = aside.clause() or kept.clause()
    where = "no clause, only what the proof says of a loop or of names"
    if open_clause:
        where = f"{open_clause.clause} ({open_clause.name})"
    if not kept.answers:
        return "not found         ", f"{where} is open, and not said to be false"
    if all(LOST_NAME.search(why.split("\n")[0]) for _, _, why in kept.answers):
        return "by a name         ", f"open with the answers set aside that name what is gone: {where}"
    other = next(why for _, _, why in kept.answers if not LOST_NAME.search(why.split("\n")[0]))
    return "by a stale answer ", f"open with the answers set aside: {where}; {difference(other)}"


def clause_of(why):
    """The clause that a verdict's reason begins with, nothing where it begins with none."""
    found = re.match(r"((?:the .*?|ensures|requires)[^:(]*?) \(.*\) is (?:false|open)|((?:the [^:]*|ensures|requires)[^:]*):", why)
    return (found[1] or found[2]).strip() if found else ""
