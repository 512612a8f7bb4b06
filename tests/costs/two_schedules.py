"""What the costs are on schedules of two kinds, at three sizes, against those of plain Rust."""
from costs.mixed import mixed_operations, numbers
from costs.pieces import costs_of
from costs.runs import PAD, ROUNDED_TO_ONE, SHORT_WRITES, heap_at_reads

WORDS = ["--cells", "2000000", "--branches", "1024"]
LENGTHS = (10_000, 100_000, 1_000_000)
# A fill stores at most 64 runs of a branch, and these need no more
FILLED = (2_000, 4_000, 8_000)
# How long `main` is, which forks share as a whole, and how many forks there are
SHARED, FORKS = 100_000, (250, 500, 1_000)
# The same for inserts at its front
FRONT, FEW_FORKS = 20_000, (50, 100, 200)
EDITS, LOOKS = 50, 20
KINDS = {
    "cycle": lambda count: [SHORT_WRITES[i % len(SHORT_WRITES)] for i in range(count)],
    "random": mixed_operations,
}
# The costs of a comparable program in plain Rust, which wrote the same bytes; taken once. It stores
# runs, has early cutoff and a mark of what fits, has no threads and no log, and its forks share
# segments.
PLAIN = {
    ("cycle", "a step of a first look"): (59.5, 54.6, 54.6),
    ("cycle", "a look after an edit"): (13_579, 38_289, 284_404),
    ("cycle", "a step of a fill"): (60.4, 61.6, 65.4),
    ("cycle", "a shared insert anywhere"): (8_894, 10_152, 12_677),
    ("cycle", "a look at `main` after it"): (42_121, 42_108, 42_088),
    ("cycle", "a look at a fork after these"): (4_442, 4_442, 4_442),
    ("cycle", "a shared insert at 0"): (3_861, 4_111, 4_616),
    ("cycle", "bytes of the heap a fork"): (112.0, 104.1, 100.2),
    ("cycle", "the same, without its log entry"): (112.0, 104.1, 100.2),
    ("random", "a step of a first look"): (59.5, 54.6, 54.6),
    ("random", "a look after an edit"): (13_414, 38_129, 284_745),
    ("random", "a step of a fill"): (60.4, 61.6, 65.5),
    ("random", "a shared insert anywhere"): (8_898, 10_159, 12_681),
    ("random", "a look at `main` after it"): (41_646, 41_634, 41_590),
    ("random", "a look at a fork after these"): (3_915, 3_915, 3_915),
    ("random", "a shared insert at 0"): (3_861, 4_111, 4_616),
    ("random", "bytes of the heap a fork"): (112.0, 104.1, 100.2),
    ("random", "the same, without its log entry"): (112.0, 104.1, 100.2),
}


def places(count, below):
    """Returns random places, the same in each run."""
    drawn = numbers(7)
    return [next(drawn) % below for _ in range(count)]


class Kind:
    """Schedules of one kind, and the rows of their table: of each, a figure at each size."""

    def __init__(self, name, scratch):
        self.name, self.scratch, self.rows = name, scratch, {}

    def path(self, count):
        path = f"{self.scratch}/{self.name}-{count}"
        with open(path, "w") as file:
            file.write("tower 1\nsafe 0\n" + "".join(f"{it}\n" for it in KINDS[self.name](count)))
        return path

    def costs(self, count, *pieces):
        return costs_of([self.path(count), *WORDS], pieces, self.scratch)[1:]

    def add(self, row, figure):
        self.rows.setdefault(row, []).append(figure)


def measure_one_branch(kind):
    for n in LENGTHS:
        look = f"0 state main {n}\n"
        edits, others = (
            [
                f"0 replace main {place} g 0 {(i + k) % 2}\n"
                for i, place in enumerate(places(LOOKS, n))
            ]
            for k in (0, 1)
        )
        first, alone, _, both = kind.costs(
            n, look, "".join(edits), look, "".join(it + look for it in others)
        )
        kind.add("a step of a first look", first / n)
        kind.add("a look after an edit", (both - alone) / LOOKS)
    for n in FILLED:
        kind.add("a step of a fill", kind.costs(n, "0 fill main\n")[0] / n)


def forked(count, forks):
    """Returns lines that fork a branch at its end, that many times."""
    return "".join(f"0 fork main {count} a{i}\n" for i in range(forks))


def measure_shared_steps(kind):
    drawn = [f"0 insert main {place} r 1\n" for place in places(2 * EDITS, SHARED)]
    edits, others = drawn[:EDITS], drawn[EDITS:]
    long = SHARED + EDITS
    for k in FORKS:
        looked = "".join(f"{it}0 state main {long + i + 1}\n" for i, it in enumerate(others))
        begun = f"0 state main {SHARED}\n" + forked(SHARED, k)
        _, alone, _, both, fork = kind.costs(
            SHARED,
            begun,
            "".join(edits),
            f"0 state main {long}\n",
            looked,
            f"0 state a{k // 2} {long + EDITS}\n",
        )
        kind.add("a shared insert anywhere", alone / EDITS)
        kind.add("a look at `main` after it", (both - alone) / EDITS)
        kind.add("a look at a fork after these", fork)
    for k in FEW_FORKS:
        kind.add(
            "a shared insert at 0",
            kind.costs(FRONT, forked(FRONT, k), "0 insert main 0 r 1\n" * EDITS)[1] / EDITS,
        )


def measure_bytes_of_a_fork(kind):
    for k in FORKS:
        # A refused fork has a log entry, and nothing else; the plain program has no log
        scripts = forked(SHARED, k), "0 fork main 0 main\n" * k
        taken = [
            heap_at_reads([kind.path(SHARED), *WORDS], PAD + it + PAD, kind.scratch)
            for it in scripts
        ]
        fork, refused = ((reads[-1][0] - reads[0][0]) / k for reads in taken)
        kind.add("bytes of the heap a fork", fork)
        kind.add("the same, without its log entry", fork - refused)


def two_schedules(scratch):
    """Prints a table for each kind of schedule, and how many of the figures are at most those of
    plain Rust."""
    ratios = []
    for name in KINDS:
        print(
            f"on schedules of safe 0, {name}, at three sizes: what is taken, and its ratio to what plain Rust takes"
        )
        kind = Kind(name, scratch)
        for part in (measure_one_branch, measure_shared_steps, measure_bytes_of_a_fork):
            part(kind)
        for row, figures in kind.rows.items():
            against = [
                taken / of_plain for taken, of_plain in zip(figures, PLAIN.get((name, row), ()))
            ]
            ratios += against
            print(
                f"  {row:40}"
                + "".join(f"{it:11.1f}" for it in figures)
                + "".join(f"{it:8.2f}" for it in against),
                flush=True,
            )
    print(f"  at most 1.0: {sum(it < ROUNDED_TO_ONE for it in ratios)} of {len(ratios)}")
