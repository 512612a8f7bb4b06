"""What a file at the program's limits costs: 16,777,208 cells on 1,024 branches."""
from costs.files import bench_file
from costs.pieces import costs_of, residents
from costs.runs import instructions

# Half of the cells are of `main`, and the others of branches that are forked at its end
MAIN, OWN, OTHERS = 1 << 23, 8_200, 1_023
WORDS = ["--cells", str(1 << 24), "--branches", "1024"]
# The costs of a program in plain Rust in millions, taken once, of which two or three digits are
# known
PLAIN = {
    "opening": 8_490,
    "a look at the end of `main`": 458,
    "an insert at its front": 0.77,
    "a look after it": 2.36,
    "a seek past all its events": 291,
    "the first fill after the look": 588,
    "saving": 9_290,
    "bytes that are resident at most": 572,
}


def row(name, taken):
    millions, of_plain = taken / 1e6, PLAIN[name]
    print(f"  {name:36}{millions:12.2f}{of_plain:12}{millions / of_plain:8.2f}", flush=True)


def pieces():
    """Yields a name of each piece of the script, or None if its cost isn't shown, and the piece."""
    yield "a look at the end of `main`", f"0 state main {MAIN}\n"
    yield "an insert at its front", "0 insert main 0 g 0 0\n"
    yield "a look after it", f"0 state main {MAIN + 1}\n"
    yield None, "0 join\n0 break returns 9\n"
    yield "a seek past all its events", "0 seek\n"
    yield "the first fill after the look", "0 fill main\n"


def large(scratch):
    cells = MAIN + OWN * OTHERS
    print(f"{cells:,} cells on {OTHERS + 1:,} branches: millions, those of plain Rust, the ratio")
    words = [bench_file(MAIN, OWN, OTHERS, scratch), *WORDS]
    names, script = zip(*pieces())
    taken = costs_of(words, script, scratch)
    for name, cost in zip(("opening", *names), taken):
        if name:
            row(name, cost)
    kept = instructions([*words, "--save", f"{scratch}/kept"], "", scratch)
    row("saving", kept - instructions(words, "", scratch))
    row("bytes that are resident at most", residents(words, script)[-1])
