"""Plays the scripts and sessions of e2e/.

With a script, or with the sessions of a group, play_script and play_sessions are jobs: each is handed a player and a folder of its own.
"""
import os
from e2e_of.texts import decoded, line_of


def play_script(script, player, folder):
    for step in script.steps:
        where = f"{script.file}:{step.number}: {script.name}"
        if step.mark == "$":
            make_call(player, where, step, folder)
        elif step.mark == "&":
            count_files(player, where, int(step.said), folder)
        elif step.mark == "=":
            player.look_into(path_of(step, folder), step.whole_text(), f"{where}: ")
        else:
            with open(path_of(step, folder), "wb") as file:
                file.write(step.whole_text())


def path_of(step, folder):
    """The path of the file that a line `@ NAME` or `= NAME` names."""
    return os.path.join(os.fsencode(folder), decoded(step.said))


def placed(text, folder):
    """A text with the folder in place of each `~`."""
    return text.replace(b"~", os.fsencode(folder))


def make_call(player, where, step, folder):
    status, *words = placed(step.said, folder).split(b" ")
    output, faults = (b"".join(line_of(placed(it, folder)) for it in lines) for lines in (step.output, step.faults))
    player.call(where, folder, [decoded(it) for it in words], (int(status), output, faults), step.whole_text())


def count_files(player, where, number, folder):
    """What differs is said of the call before."""
    names = sorted(os.listdir(os.fsencode(folder)))
    if len(names) != number:
        player.differs(f"{where}: there are {names}, and have to be {number} files")


def play_sessions(sessions, player, folder):
    for it in sessions:
        player.row(f"{it.file}:{it.number}: {it.shown()}")
        player.compare((0, it.whole_output(), b""), player.ended(folder, ["covcollect"], it.whole_input()))
