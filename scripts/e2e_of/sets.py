"""Random sets of tracefiles with large counts: the merge of the merges of their parts has to be the merge of all, byte for byte."""
import functools, random, re
from e2e_of.made import written

SETS = 20
MOST = 2**128 - 1


def random_count(it):
    """Small ones, those about 2^64, and some so large that a sum of two stops at 2^128 - 1."""
    return it.choice((0, 1, it.randrange(1000), 2**64 - 1, it.randrange(2**63, 2**66), it.randrange(2**127, MOST + 1)))


def random_section(it):
    """A section of one of a few files and tests. A line's checksum depends on file and line alone, so all of them agree."""
    file = it.choice(("/a.c", "/b/c.c", "d e.c"))
    lines = [f"TN:{it.choice(('', 't', 'u'))}", f"SF:{file}"]
    for name in it.sample(("f", "g", "h(int, char)"), it.randrange(3)):
        lines += [f"FN:{it.randrange(1, 9)},{name}", f"FNDA:{random_count(it)},{name}"]
    for _ in range(it.randrange(4)):
        taken = it.choice(("-", random_count(it)))
        lines.append(f"BRDA:{it.randrange(1, 4)},{it.randrange(2)},{it.randrange(2)},{taken}")
    for _ in range(it.randrange(1, 6)):
        line = it.randrange(1, 9)
        checksum = f",sum{file[-3:-2]}{line}" if it.random() < 0.4 else ""
        lines.append(f"DA:{line},{random_count(it)}{checksum}")
    return "".join(f"{line}\n" for line in [*lines, "end_of_record"])


def printed_by(player, folder, words):
    """What a call prints that ends with 0 and tells nothing."""
    status, output, told = player.ended(folder, [player.program, *words])
    if status or told:
        player.differs(f"{' '.join(words)}: the status is {status} and the faults are {told!r}")
    return output


def parts_merged(player, folder, it, names):
    """The names of merges of parts of the tracefiles, in some order."""
    parts = [[] for _ in range(it.randrange(2, 5))]
    for name in names:
        it.choice(parts).append(name)
    merges = [
        written(f"{folder}/part{number}", [printed_by(player, folder, ["merge", *part])]) for number, part in enumerate(parts) if part
    ]
    it.shuffle(merges)
    return merges


def merge_of_merges(seed, player, folder):
    """A row for a set. It fails too if no count of the merge says something."""
    player.row(f"merge of merges {seed}")
    it = random.Random(seed)
    names = [f"{folder}/{number}.info" for number in range(it.randrange(3, 12))]
    for name in names:
        written(name, ["".join(random_section(it) for _ in range(it.randrange(1, 5))).encode()])
    merges = parts_merged(player, folder, it, names)
    merged, summed = (printed_by(player, folder, [command, *names]) for command in ("merge", "summary"))
    for words, wanted in ((["merge"], merged), (["merge", "--jobs", "3"], merged), (["summary"], summed)):
        player.compare((0, wanted, b""), player.ended(folder, [player.program, *words, *merges]))
    counts = [int(number) for number in re.findall(rb"(?m)^(?:DA:\d+,|FNDA:|BRDA:\d+,\d+,\d+,)(\d+)", merged)]
    if not any(2**64 <= number < MOST for number in counts):
        player.differs("no sum is above 2^64 and below the largest number")
    return MOST in counts


JOBS = tuple(functools.partial(merge_of_merges, seed) for seed in range(SETS))
