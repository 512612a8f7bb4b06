"""What files cost that are opened and saved, and what is held of them."""
from costs.runs import PAD, SHORT_WRITES, heap_at_reads, instructions, tower_file


def bench_file(shared, own, others, scratch):
    """A bench file of a branch, and of others that have its first steps each and as many own
    ones."""
    path = f"{scratch}/bench"
    with open(path, "w") as file:

        def step_lines(count):
            file.writelines(f"{SHORT_WRITES[i % len(SHORT_WRITES)]}\n" for i in range(count))

        file.write("bench 1\nsafe 0\nbranch main 0 0\n")
        step_lines(shared)
        for number in range(others):
            file.write(f"branch a{number} 0 {shared}\n")
            step_lines(own)
    return path


def bench(scratch):
    def row(name, figures):
        print(f"  {name:52}" + "".join(f"{it:9.1f}" for it in figures))

    def costs(sizes, script):
        """Returns what a step costs to be opened, and then to be saved."""
        opened, saved = [], []
        for shared, own, others in sizes:
            path, count = bench_file(shared, own, others, scratch), shared + own * others
            words = [path, "--cells", str(count + 9), "--branches", "1024"]
            first, last = instructions(words, script, scratch), instructions(
                [*words, "--save", f"{scratch}/kept"], script, scratch
            )
            opened.append(first / count)
            saved.append((last - first) / count)
        return opened, saved

    print(
        "instructions a step, of 50,000, 100,000 and 200,000 steps, half of them shared by 1,000 branches"
    )
    opened, saved = costs([(n // 2, n // 2000, 1000) for n in (50_000, 100_000, 200_000)], "")
    row("opened", opened)
    row("saved", saved)
    sizes = [(n, 0, 0) for n in (2_500_000, 5_000_000, 10_000_000)]
    print("instructions a step, of a branch of 2,500,000, 5,000,000 and 10,000,000 steps")
    opened, saved = costs(sizes, "0 insert main 0 r 1\n")
    row("opened, and an insert at its front", opened)
    row("saved", saved)
    held, most = [], []
    for count, own, others in sizes:
        words = [
            bench_file(count, own, others, scratch),
            "--cells",
            str(count + 9),
            "--save",
            f"{scratch}/kept",
        ]
        reads = heap_at_reads(words, PAD, scratch)
        held.append(reads[0][0] / count)
        most.append(max(it[1] for it in reads) / count)
    print("bytes of the heap a step, of the same")
    row("once it is opened", held)
    row("at most on the way there", most)


def heap(scratch):
    count = 1_000_000
    path = tower_file("safe 0", SHORT_WRITES, count, scratch)
    script = f"0 state main {count}\n{PAD}0 fork main {count} a\n{PAD}0 branches\n"
    reads = heap_at_reads([path, "--cells", "2000000"], script, scratch)
    opened, most = reads[0]
    print(f"bytes of the heap a step, over a file of {count} steps")
    print(f"  opened: {opened / count:.1f}, and at most {most / count:.1f} on the way there")
    print(
        f"  after a page at the end: {(reads[1][0] - opened) / count:.1f} more; "
        f"after a fork: {reads[2][0] - reads[1][0]} bytes more in all"
    )
