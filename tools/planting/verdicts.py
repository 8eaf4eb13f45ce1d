"""Reads what `rt check` and `rt test` say of an edited crate."""

import re
from dataclasses import dataclass

UNCOMPILED, REFUSED, UNREAD, CAUGHT, SURVIVED, UNANSWERED = OUTCOMES = (
    "does not compile", "refused by proof", "refused by a proof that no longer applies", "caught by test", "survived", "no answer")


@dataclass
class Outcome:
    name: str
    detail: str = ""
    # Whether the prover names values at which the goal is false.
    is_false: bool = False


GOAL = re.compile(r"(?:note: )?(?:\./)?src/\S+: (?:it is not proved that )?(?P<text>.+?) \(`(?P<goal>[\w'+-]+)`\)")
ANSWER = re.compile(r"(?:note: )?(?:\./)?proofs/\S+: error: `(?P<goal>[\w'+-]+)`: ")
NAMED_VALUES = re.compile(r"the facts known there allow values|the goal fails, at")
UNPROVED = re.compile(r"(?:fn|impl|struct|trait|enum) (?P<name>\S+): (?:not proved$|no proof: (?!it calls|it passes))")
# A proof file that names a fact which the edited code no longer has. It says nothing of the contract.
NAMES_GONE = re.compile(r"(?:note: )?(?:\./)?proofs/.*(?:has no field|is not in scope|has no `|was not admitted)")
TOLD = re.compile(r"(?:note: )?\S+:\d+:\d+: (?:error|it is not proved)")
LIMIT = re.compile(r"antt ran out of|outgrew the memory limit|stopped at the step limit")


def short(name):
    """The name without its crate and modules, but with the type that a method is of."""
    words = name.split("::")
    return "::".join(words[-2:] if words[-2][:1].isupper() else words[-1:])


# What a goal is about, by its name, where only an answer file speaks of it.
ABOUT = {r"overflow": "the result fits its type", r"bounds": "the index is in its bounds", r"slice_bounds": "the part is in its bounds",
         r"invariant": "the type's invariant holds", r"cast": "the value fits the type that it is cast to",
         r"loop.*init": "the loop's invariant holds at first", r"loop.*preserved": "the loop's invariant is kept"}
# Words of a goal's name that say on which path it is, and not of what call.
PATH = re.compile(r"then|else|not|in_\w+|[A-Z]\w*")


def clause(goal, text, said):
    """What is not proved, in a few words."""
    name = re.escape(goal)
    named = (re.search(r"-clause-(\w+)$", goal) or re.search(rf"`{name}-clause-(\w+)`", said)
             or re.search(rf"`{name}` of \S+ must prove: record {{(\w+) :", said))
    if goal.startswith("returns"):
        return f"`ensures {named[1]}` of" if named else "the contract of"
    if "-requires" in goal:
        called = re.match(r"what `([^`]+)` requires", text) if text else None
        words = [it for it in goal.partition("-requires")[0].split("-") if not PATH.fullmatch(it)]
        return f"`requires{f' {named[1]}' if named else ''}` of `{called[1] if called else words[0]}`, called in"
    about = next((words for begin, words in ABOUT.items() if re.match(begin, goal)), "a step of the proof")
    return (re.sub(r" \(at a range.*?\)", "", text) if text else about) + ", in"


def first_refusal(said):
    """The first function that is not proved for itself, and the first of its goals; whether values are named that break it."""
    goals = []
    for line in said.splitlines():
        goals += filter(None, (GOAL.match(line) or ANSWER.match(line),))
        unproved = UNPROVED.match(line)
        if unproved and not unproved["name"].count("+Fn"):
            goal = next(iter(goals), None)
            what = clause(goal["goal"], goal.groupdict().get("text"), said) if goal else "the proof of"
            return f"{what} `{short(unproved['name'])}`", any(NAMED_VALUES.search(it.string) for it in goals)
    return "", False


def judge(status, said):
    """What a check says of an edit; nothing, if all is proved."""
    if status is None:
        return Outcome(UNANSWERED, "the time was up")
    if status == 0:
        return None
    error = re.search(r"error\[[\w-]+\][^\n]*", said)
    if re.search(r"^logic=not-proved", said, re.M):
        told = [line for line in said.splitlines() if TOLD.match(line)]
        if told and all(NAMES_GONE.match(line) for line in told):
            return Outcome(UNREAD, first_refusal(said)[0])
        return Outcome(REFUSED, *first_refusal(said))
    if error and "failed-constant-evaluation" in error[0]:
        return Outcome(REFUSED, "a constant that cannot be worked out, or whose `prove!` is false")
    if error and not LIMIT.search(said):
        return Outcome(UNCOMPILED, error[0][:160])
    return Outcome(UNANSWERED, (LIMIT.search(said) or [said.strip().splitlines()[-1][:120]])[0])


def failed_test(said):
    """The first test that failed, as `rt test` names it."""
    failed = re.search(r"^test (\S+) \.\.\. (?!ok)", said, re.M)
    return failed[1] if failed else "its tests"
