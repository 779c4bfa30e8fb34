"""Tries the edits of one crate: the control, batches of edits of different functions, and then alone what no batch could judge."""
import os

from . import edit as verdicts
from .checks import Checks
from .functions import Functions
from .kept import CHECKS
from .kit import kit_sum, sum_of

# How rt's verdict on an edit that it tried alone begins. Any other says that it couldn't be tried.
OF_RT = {
    "refused, as it must be": verdicts.REFUSED, "NOT REFUSED": verdicts.NOT_REFUSED, "NOT TRIED": verdicts.NOT_TRIED,
}
# How many edits a batch has, as far as there are so many: each check loads the libraries first, and takes more memory for more functions.
LEAST, MOST = 8, 24


class Batch:
    """Edits of different functions, with the texts of the files that they change."""

    def __init__(self, crate):
        self.crate, self.edits, self.texts, self.functions = crate, [], {}, []

    def takes(self, edit, most):
        """Adds the edit, if it can be judged beside those that are there."""
        if self.edits and (len(self.edits) >= most or not (edit.shares and self.edits[0].shares) or edit.is_single or self.edits[0].is_single):
            return False
        if any(it in self.functions for it in edit.functions):
            return False
        texts = edit.applied(self.texts, self.crate.folder)
        if texts is None:
            return False
        self.edits.append(edit)
        self.texts, self.functions = texts, [*self.functions, *edit.functions]
        return True


class Tries:
    """Tries edits of one crate. `settled` is called with each edit that has a verdict."""

    def __init__(self, rt, crate, lanes, kept, log, settled):
        self.rt, self.crate, self.lanes, self.kept, self.settled = rt, crate, lanes, kept, settled
        self.functions = Functions(crate.folder)
        self.checks = Checks(rt, crate, self.functions, log)
        self.batches, self.alone, self.controlled = 0, 0, 0
        # The names of functions that the control was seen to prove, now or before.
        self.proved = []
        # Functions that the control doesn't prove, with a goal: all, or those of a crate that is proved as it stands.
        self.broken, self.holed = {}, {}

    def run(self, edits, others=()):
        """Settles each of these edits. The control is made for others too."""
        concerned = list(dict.fromkeys([*edits, *others]))
        if not all(map(self.cannot_be_applied, concerned)):
            self.lanes.run([lambda _: self.checks.name_functions()])
        for it in concerned:
            it.find_functions(self.functions, self.cannot_be_applied(it))
        self.control(concerned)
        while left := [it for it in edits if not it.verdict and not it.is_alone]:
            made = self.batches_of(left)
            self.batches += len(made)
            self.lanes.run([lambda begun, batch=it: self.try_batch(batch, begun) for it in made])
        self.lanes.run([lambda _, edit=it: self.try_alone(edit) for it in edits if not it.verdict])

    def cannot_be_applied(self, edit):
        return bool(self.rt.read_edit(edit.file, self.crate.folder)[1])

    def settle(self, edit, verdict, why):
        edit.settle(verdict, why)
        self.settled(edit)

    def most(self, number):
        """How many of so many edits or functions one check has, so that each lane has one if there are enough."""
        return min(MOST, max(LEAST, -(-number // self.lanes.number)))

    def batches_of(self, edits):
        most, made = self.most(len(edits)), []
        while edits:
            batch = Batch(self.crate)
            edits = [it for it in edits if not batch.takes(it, most)]
            made.append(batch)
        return made

    def control(self, edits):
        """Checks the functions of the edits as they stand, if they weren't seen without an open goal. An edit of one that has is not tried."""
        functions = list(dict.fromkeys(it for edit in edits for it in edit.functions))
        names = {it: sum_of("control", kit_sum(), CHECKS, self.crate.name, it.name) for it in functions}
        recorded = self.kept.controlled_of(self.crate.name)
        new = [it for it in functions if it.name not in recorded and not self.kept.read(names[it])]
        self.check_as_they_stand(new)
        for it in new:
            if it in self.broken:
                self.kept.remove(names[it])
            else:
                self.kept.write(names[it], True)
        self.proved = sorted({*recorded, *(it.name for it in functions if it not in self.broken)})
        if self.broken:
            self.settle_broken(edits)

    def check_as_they_stand(self, functions):
        self.controlled, most = len(functions), self.most(len(functions))
        parts = [functions[at : at + most] for at in range(0, len(functions), most)]
        for part, said in zip(parts, self.lanes.run([lambda begun, part=it: self.check_twice({}, part, begun) for it in parts])):
            self.judge_control(part, said)

    def judge_control(self, functions, said):
        strays = said.strays(functions)
        for function in functions:
            if strays or not said.is_proved(function):
                goals = [*said.open_goals(function), *strays, f"its check ended with status {said.status} and says nothing of it"]
                self.broken[function] = goals[0]

    def settle_broken(self, edits):
        """Where the crate is proved as it stands, holes are what failed: edits of such a function are tried alone. Elsewhere they aren't tried."""
        is_proved = self.lanes.run([lambda _: self.rt.checked(self.crate, {}, ["--jobs", "1"], None).returncode])[0] == 0
        for it in edits:
            found = next((function for function in it.functions if function in self.broken), None)
            if found and is_proved:
                it.is_alone = True
            elif found and not it.verdict:
                self.settle(it, verdicts.NOT_TRIED, f"{found.name} has an open goal as it stands: {self.broken[found]}")
        if is_proved:
            self.holed, self.broken = self.broken, {}

    def check_twice(self, texts, functions, begun):
        """Checks, and once more where the check was killed, most likely for memory."""
        said = self.checks.check(texts, functions, begun)
        return self.checks.check(texts, functions, begun) if said.was_killed() else said

    def try_batch(self, batch, begun):
        said = self.check_twice(batch.texts, batch.functions, begun)
        if said.was_killed():
            for it in batch.edits:
                self.settle(it, verdicts.NOT_TRIED, "its check was killed, most likely for memory: run this again")
        elif not said.was_read():
            self.part(batch, said)
        else:
            self.judge(batch, said)

    def part(self, batch, said):
        """Where the front end doesn't take the batch, what it complains of is tried alone, and the others again. Where it can't be told, each is by itself."""
        blamed = [it for it in batch.edits if any(said.blames(function) for function in it.functions)]
        if not blamed and len(batch.edits) == 1:
            blamed = batch.edits
        for it in blamed:
            it.is_alone = True
        if not blamed:
            for it in batch.edits:
                it.is_single = True

    def judge(self, batch, said):
        """An edit is refused if a function of its own has an open goal. One that isn't may wait for a function that another edit changed."""
        is_sound = not said.strays(batch.functions)
        for it in batch.edits:
            found = [(function, goal) for function in it.functions for goal in said.open_goals(function)] if is_sound else []
            if found:
                self.settle(it, verdicts.REFUSED, self.words_on(*found[0]))
        is_any_refused = any(it.verdict for it in batch.edits)
        for it in batch.edits:
            may_wait = is_any_refused and not all(said.is_proved(function) for function in it.functions)
            it.is_alone = not it.verdict and not may_wait

    def words_on(self, function, goal):
        clause = function.clause_of(goal)
        return f"{function.path} {function.name}: {goal[:300]}" + (f" [{clause[:200]}]" if clause else "")

    def try_alone(self, edit):
        """Tries the edit in a whole check from nothing, by rt's own rules."""
        self.alone += 1
        _, text = self.rt.must_fail(self.crate, edit.file, ["--jobs", "1"])
        text = text.removeprefix(f"must-fail {self.crate.name}/{os.path.basename(edit.file)}: ")
        begun = next((it for it in OF_RT if text.startswith(it)), "BAD EDIT")
        self.settle(edit, OF_RT.get(begun, verdicts.BAD), f"alone: {' '.join(text.removeprefix(begun).removeprefix(':').split())}")
