"""What looks at a settled branch cost, and the commands of a session there."""
from costs.runs import READ, SHORT_WRITES, TOWERS, WRITE, instructions, tower_file, varied


def pages(scratch):
    count = 100_000
    path = tower_file("safe 0", SHORT_WRITES, count, scratch)
    words = [path, "--cells", "200000"]
    page = f"0 state main {count}\n"
    lines = [
        ("first page", page),
        ("replace and page", f"0 replace main {count // 2} g 0 1\n{page}"),
        ("page again", page),
        ("insert and page", f"0 insert main {count // 2} g 0 1\n{page}"),
    ]
    before, script, first = instructions(words, "", scratch), "", None
    print(f"instructions of pages at the end of {count} steps of safe 0, opened by {before}")
    for name, more in lines:
        script += more
        now = instructions(words, script, scratch)
        first = first or now - before
        print(f"  {name:18}{now - before:12}   1 / {first / (now - before):.1f}")
        before = now


def looks(scratch):
    print(
        "instructions a step of a page at the end of a settled branch of safe 0, of 10,000, 20,000 and 40,000 steps"
    )
    for kind in ("state", "history", "verdict"):
        figures = []
        for count in (10_000, 20_000, 40_000):
            path = tower_file("safe 0", WRITE + READ, count, scratch)
            script = f"0 state main {count}\n"
            once = instructions([path], script, scratch)
            figures.append(
                (instructions([path], f"{script}0 {kind} main {count}\n", scratch) - once) / count
            )
        print(f"  {kind:16}" + "".join(f"{it:9.1f}" for it in figures))


def lens(scratch):
    line, count, runs, deep = "stamped 4 3", 100_000, range(34), range(96, 128)
    path = tower_file(line, varied(TOWERS[line], count), count, scratch)
    words, first = [path, "--cells", "200000"], f"0 state main {128 * len(runs)}\n"

    def cost_at(places):
        return instructions(
            words, first + "".join(f"0 state main {place}\n" for place in places), scratch
        )

    ends = cost_at([128 * k for k in runs for _ in deep])
    next_to = cost_at([128 * k + place for k in runs for place in deep])
    apart = cost_at([128 * k + place for place in deep for k in runs])
    count_of_looks = len(runs) * len(deep)
    near, far = (next_to - ends) / count_of_looks, (apart - ends) / count_of_looks
    print(
        f"instructions of {count_of_looks} looks at deep places of {line}, more than a look at the end of a run: "
        f"{near:.0f} each after its neighbour, {far:.0f} without one, "
        f"{(apart - ends) / (next_to - ends):.2f} times as many"
    )


def sessions(scratch):
    counts = (10_000, 20_000, 40_000)
    begun = {count: f"0 state main {count}\n0 join\n" for count in counts}
    print(
        "instructions a step of a seek over a settled branch of safe 0, of 10,000, 20,000 and 40,000 steps"
    )
    for kind in ("returns 9", "bit 9 1"):
        figures = []
        for count in counts:
            path = tower_file("safe 0", WRITE + READ, count, scratch)
            script = f"{begun[count]}0 break {kind}\n"
            figures.append(
                (
                    instructions([path], f"{script}0 seek\n", scratch)
                    - instructions([path], script, scratch)
                )
                / count
            )
        print(f"  {kind:16}" + "".join(f"{it:9.1f}" for it in figures))
    print("instructions of another command of a session there")
    for kind in ("join", "go main 5000", "break void", "cursor"):
        figures = []
        for count in counts:
            path = tower_file("safe 0", WRITE + READ, count, scratch)
            line = f"0 {kind}\n"
            few, many = (instructions([path], begun[count] + line * n, scratch) for n in (1, 101))
            figures.append((many - few) / 100)
        print(f"  {kind:16}" + "".join(f"{it:9.0f}" for it in figures))
