"""Must-fail edits of a crate: how they are read, packed into batches, applied, and judged by what a check says.

A check goes on after an error, and judges each function against the contracts of those that it calls, even where one of them is
refused. So one check tries many edits, each in another function. An edit of a batch counts as refused only by its own function's
line or an error in its own function's proof. What a batch leaves open is tried alone, and so is an edit of a definition, or of several
functions: there any refusal counts, as for `rt must-fail`.

A check of some functions alone (`--only`) takes less, and what it refuses, a check of the crate does. So a batch is tried on the
functions that it edits, and an edit alone first on the function that its file is named for. What is not refused there is tried on the
whole crate.
"""

import dataclasses
import pathlib
import re

# How many edits a batch may have: more of them save no time.
LARGEST = 8
PLACES = ("src/", "specs/", "proofs/")
FUNCTION = re.compile(r"(?m)^ *(?:pub(?:\([^)]*\))? )?(?:const )?(?:unsafe )?fn (\w+)")
OWNER = re.compile(r"(?m)^(?:pub )?(?:unsafe )?(?:impl|trait)\b.*?(\w+)(?:<[^{]*>)?(?: where\b.*)? \{$")
LINE_OF_FUNCTION = re.compile(r"(?m)^fn (\S+): (.*)$")
ERROR_OF_PROOF = re.compile(r"(?m)^(?:\./)?proofs/(\S+)/\w+\.antt:\d+:\d+: error: (.*)$")
# What an error says that is no refusal of its own: it follows from another, or a name that the edit took away.
FOLLOWS = re.compile(r"was rejected|was not admitted|depends on")
VANISHED = re.compile(r"has no field|is not in scope|has no `|is no name")
OPEN_GOAL = re.compile(r"`search` did not prove")
# An edited text that can't be read: no contract was tried.
UNREAD = re.compile(r"(?m)^(?:\./)?(\S+?):\d+:\d+: error: (`[^`]*`: )?(.*)$")
NOT_READ = re.compile(r"is not in scope|has no field|is no name|operand is missing|expected the end|cannot continue")
STALE = re.compile(r"module .Rattle-(\w+)-.*Run the lower steps again")


class BadEdit(Exception):
    """An edit that doesn't apply, or whose text the check can't read."""


@dataclasses.dataclass(frozen=True)
class Edit:
    """A wrong body: pairs of texts, each with the file in which it stands."""

    name: str
    pairs: tuple

    def apply(self, folder, texts):
        """Applies each pair to these texts of files of a crate, or to the files in its folder."""
        for path, old, new in self.pairs:
            try:
                text = texts[path] if path in texts else (pathlib.Path(folder) / path).read_text()
            except (OSError, UnicodeDecodeError) as error:
                raise BadEdit(f"{path} cannot be read") from error
            if text.count(old) != 1:
                raise BadEdit(f"an 'old:' text is in {path} {text.count(old)} times, and not once")
            texts[path] = text.replace(old, new)
        return texts

    def place(self, folder):
        """The one function that it edits, as its module, the type of its block, and its name; or nothing."""
        found = set()
        for path, old, _ in self.pairs:
            before = (pathlib.Path(folder) / path).read_text().partition(old)[0] if path.startswith("src/") else ""
            module = re.sub(r"(^|/)(lib|main|mod)$", "", path[4:].removesuffix(".rt")).replace("/", "::")
            names = FUNCTION.findall(before)
            found.add((module, (OWNER.findall(before) or [""])[-1], names[-1]) if names else None)
        return found.pop() if len(found) == 1 else None


def read_edit(file):
    """Reads an edit: a line 'file: PATH', and then pairs of lines 'old: TEXT' and 'new: TEXT'."""
    path, old, pairs = "", None, []
    for line in pathlib.Path(file).read_text(errors="replace").split("\n"):
        word, _, rest = line.partition(": ")
        if word == "file":
            path = rest.strip()
            if not path.startswith(PLACES) or ".." in path:
                raise BadEdit("a 'file:' line names no file below src/, specs/ or proofs/")
        elif word == "old":
            if old is not None:
                raise BadEdit("an 'old:' line stands behind another")
            old = rest
        elif line.startswith("new:"):
            if not path or not old:
                raise BadEdit("a 'new:' line stands before any 'file:' or 'old:' line")
            pairs.append((path, old, line.removeprefix("new:").removeprefix(" ")))
            old = None
    if not pairs:
        raise BadEdit("it has no 'old:' and 'new:' pair")
    return Edit(pathlib.Path(file).stem, tuple(pairs))


class Batch:
    """Edits that one check tries, each in a function of its own; or one alone, at first on its own function."""

    def __init__(self, edits, places=(), whole=False):
        self.edits, self.places, self.whole = list(edits), list(places), whole

    @property
    def is_alone(self):
        return not self.places

    def functions(self, crate, lines):
        """The functions that a check of this batch asks for, of those that a check prints; none if it is to be of the crate."""
        if self.is_alone:
            return [] if self.whole else [it for it in lines if it.endswith("::" + self.edits[0].name.partition(".")[0])]
        found = [names_of(it, crate, lines) for it in self.places]
        return [name for it in found for name in it] if all(found) else []

    def texts(self, folder):
        texts = {}
        for it in self.edits:
            it.apply(folder, texts)
        return texts

    def halves(self):
        """Two smaller batches, or the edit alone."""
        middle = len(self.edits) // 2
        parts = (slice(middle), slice(middle, None))
        return [Batch(self.edits, whole=True)] if not middle else [Batch(self.edits[it], self.places[it]) for it in parts]


def packed(edits, folder, largest=LARGEST):
    """Batches of these edits: no two of one batch in one function, and none whose text another one holds."""
    together, alone = [], []
    for edit in edits:
        place = edit.place(folder)
        fits = next((it for it in together if place and place not in it.places and len(it.edits) < largest and applies(it, edit, folder)), None)
        if fits:
            fits.edits.append(edit)
            fits.places.append(place)
        else:
            (together if place else alone).append(Batch([edit], [place] if place else []))
    return together + alone


def applies(batch, edit, folder):
    try:
        return bool(edit.apply(folder, batch.texts(folder)))
    except BadEdit:
        return False


@dataclasses.dataclass
class Verdict:
    """What a check says of a batch: the edits that are refused, each with why, those that are not, and what is to be tried."""

    refused: dict = dataclasses.field(default_factory=dict)
    kept: dict = dataclasses.field(default_factory=dict)
    again: list = dataclasses.field(default_factory=list)


def logic_of(said):
    """The check's last word: `proved ..`, `not-proved`, or nothing."""
    found = re.findall(r"(?m)^logic=(.*)$", said)
    return found[-1] if found else ""


def outcome_of(status, said):
    """Whether a check proved what it was asked for, the crate or some functions: True, False, or None where it does not say."""
    of_some = re.findall(r"(?m)^only=(\d+) proved=(\d+)$", said)
    wanted, proved = of_some[-1] if of_some else (1, 1)
    is_proved = wanted == proved if of_some else logic_of(said).startswith("proved")
    is_refused = wanted != proved if of_some else logic_of(said).startswith("not-proved")
    return True if status == 0 and is_proved else False if status == 1 and is_refused else None


def judged(batch, crate, status, said):
    return judged_alone(batch, status, said) if batch.is_alone else judged_together(batch, crate, status, said)


def judged_alone(batch, status, said):
    """One edit: any refusal counts, if the edited text was read. Only a check of the whole crate says that there is none."""
    edit, outcome = batch.edits[0], outcome_of(status, said)
    bad = next((it for it in UNREAD.finditer(said) if is_unread(it, edit)), None)
    if bad:
        why = f"the check cannot read the edited text: {bad[0][:160]}"
    elif STALE.search(said):
        why = "the kept work of a library could not be used"
    elif outcome is False:
        return Verdict(refused={edit: "refused"})
    elif not batch.whole:
        return Verdict(again=[Batch([edit], whole=True)])
    else:
        why = "the crate is still proved with this edit" if outcome else f"the check gave no verdict (status {status}): {said[-300:].strip()}"
    return Verdict(kept={edit: why})


def is_unread(found, edit):
    """Whether an error says that a text of src/, specs/ or an edited file could not be read."""
    if found[1] not in [path for path, _, _ in edit.pairs] and not found[1].startswith(("src/", "specs/")):
        return False
    return not found[2] or bool(NOT_READ.search(re.sub(r"`[^`]*`", "", found[3])))


def judged_together(batch, crate, status, said):
    """Several edits: each by the line of its own function, and by the errors in its own function's proof."""
    lines, outcome = functions_of(said), outcome_of(status, said)
    names = [name_of(place, crate, lines) for place in batch.places]
    errors = {}
    for folder, text in ERROR_OF_PROOF.findall(said):
        errors.setdefault(folder, []).append(text)
    if outcome:
        return Verdict(again=[Batch([it], whole=True) for it in batch.edits])
    if outcome is None or not lines or any(is_refused(it, crate, lines, errors) for it in lines if it not in names):
        # (an edit that reaches beyond its own function is found so)
        return Verdict(again=batch.halves())
    refused = {edit for edit, name in zip(batch.edits, names) if name and is_refused(name, crate, lines, errors)}
    return Verdict(refused=dict.fromkeys(refused, "refused"), again=[Batch([it]) for it in batch.edits if it not in refused])


def functions_of(said):
    """What a check says of each function, by its name."""
    return dict(LINE_OF_FUNCTION.findall(said))


def names_of(place, crate, lines):
    """The names that a check may print of the function at this place. (A method is printed below its type's module.)"""
    module, owner, name = place
    found = [it for it in lines if it.startswith(f"{crate}::") and it.endswith(f"::{name}")]
    for narrow in (f"{crate}::{module}::", f"::{owner}", f"::{owner}::"):
        found = [it for it in found if narrow in it] or found
    return found


def name_of(place, crate, lines):
    """The one name that a check prints of the function at this place; or None."""
    found = names_of(place, crate, lines)
    return found[0] if len(found) == 1 else None


def is_refused(name, crate, lines, errors):
    """Whether a check refuses a function for itself, and not for what it calls."""
    own = errors.get(name.removeprefix(f"{crate}::").replace("::", "/"), [])
    if any(VANISHED.search(it) for it in own):
        return False
    return bool(OPEN_GOAL.search(lines[name])) or any(not FOLLOWS.search(it) for it in own)
