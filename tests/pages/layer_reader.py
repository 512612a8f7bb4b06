"""What is inside the operations of a schedule: a reader of the pages `state`, `bits` and `history`.

It has nothing of page/, and doesn't read the page `pending`: it takes each operation's bit actions,
and puts these together to numbers and registers by what docs/guide/towers.md says of the towers.
"""
import itertools
import re

PROCESS = re.compile(r"p(\d) (?:idle|read|write \d+)(?: (stopped)|(?: next (..) (\d+)))?")
# After the words of its bits a stamped register has the last stamp and the best code.
MORE_WORDS = 2


class Tower:
    """A tower's numbers: its registers, their sizes, and what a code is of."""

    def __init__(self, line):
        self.kind, *numbers = line.split()
        first, *rest = map(int, numbers)
        self.readers, self.values, self.side, self.size, self.tagged = 1, 2, 0, 0, 0
        if self.kind in ("copies", "regular"):
            self.readers = first
        elif self.kind == "unary":
            self.values, self.readers, self.size = first, rest[0], first
        elif self.kind == "stamped":
            self.values, self.size = first, (rest[0] + 1) * first
        elif self.kind == "matrix":
            self.side, self.values = first, rest[0]
            self.tagged = (rest[1] + 1) * first * rest[0]
            self.size = (rest[2] + 1) * self.tagged
        self.processes = self.side or 1 + self.readers

    @property
    def layers(self):
        copies = ["copies"] * (self.readers > 1)
        return {
            "safe": [],
            "copies": copies,
            "regular": copies,
            "unary": ["regular", *copies],
            "stamped": ["unary", "regular"],
            "matrix": ["stamped", "unary", "regular"],
        }[self.kind]

    @property
    def registers(self):
        if not self.size:
            return []
        if self.kind != "matrix":
            return ["number" if self.kind == "unary" else "register"]
        return [f"R[{i}][{j}]" for i in range(self.side) for j in range(self.side)]

    def tag(self, inner):
        """Returns the tag, the writer and the value of a tagged code."""
        return (
            inner // self.values // self.side,
            inner // self.values % self.side,
            inner % self.values,
        )

    def tag_words(self, inner):
        return "tag {}, p{} wrote {}".format(*self.tag(inner))

    def about(self, code):
        """Returns what a code is of, in words."""
        if self.kind == "unary":
            return f"{code}"
        if self.kind == "stamped":
            return f"stamp {code // self.values}, value {code % self.values}"
        return f"{self.tag_words(code % self.tagged)}, stamp {code // self.tagged}"

    def named(self, code):
        """Returns a code with what it is of, after `=`."""
        return f"{code}" if self.kind == "unary" else f"code {code} = {self.about(code)}"

    def brief(self, code):
        """Returns a code with what it is of, in brackets."""
        return f"{code}" if self.kind == "unary" else f"code {code} ({self.about(code)})"


class Part:
    """Bit actions in a row that belong together, from the place `begin` to the place `end`, whose
    step ends them if it `is_over`."""

    def __init__(self, parts, layer):
        self.parts, self.layer, self.begin = parts, layer, parts[0].begin
        self.end, self.is_over = parts[-1].end, parts[-1].is_over
        self.is_write, self.cell = parts[0].is_write, parts[0].cell


class Bit:
    """A write or a read of one safe bit."""

    is_over, parts = False, ()

    def __init__(self, begin, is_write, cell):
        self.begin = self.end = begin
        self.is_write, self.cell = is_write, cell


class Operation:
    """An operation of the schedule; ended: its last step, or None."""

    ended, value, parts = None, None, ()

    def __init__(self, process, words, begun):
        self.process, self.words, self.begun = process, words, begun


class Inside:
    """What is inside the operations of a schedule, by its pages."""

    def __init__(self, tower, pages):
        self.tower, self.pages, self.length = tower, pages, len(pages["state"]) - 1
        self.lines = [it[: tower.processes] for it in pages["state"]]
        self.bits = [it[tower.processes].split()[1] for it in pages["state"]]
        self.words = [list(map(int, it[-1].replace("-", "").split()[1:])) for it in pages["state"]]
        self.chosen, self.operations = {}, []
        self.read_history()
        for it in self.operations:
            it.parts = self.parts_of(it)

    def read_history(self):
        live = {}
        for line in self.pages["history"]:
            if line == "none":
                continue
            step, process, kind, *rest = line.split()
            if kind == "invoke":
                live[process] = Operation(int(process[1:]), " ".join(rest), int(step))
                self.operations.append(live[process])
            elif kind == "chosen":
                self.chosen[int(step), int(process[1:])] = int(rest[-1])
            elif kind in ("return", "refused"):
                it = live.pop(process)
                it.ended = int(step)
                it.value = int(rest[0]) if kind == "return" and it.words == "read" else None

    def bits_of(self, it):
        """Returns an operation's reads and writes of bits, by its next actions."""
        found, was = [], None
        for place in range(it.begun + 1, (self.length if it.ended is None else it.ended) + 1):
            is_stopped, action, cell = PROCESS.fullmatch(self.lines[place][it.process]).groups()[1:]
            # A process that stopped stays at its last action
            if not is_stopped:
                if action in ("ws", "rs") and was != action + cell:
                    found.append(Bit(place, action == "ws", int(cell)))
                was = action + cell
            found[-1].end = place
        for one, _ in itertools.pairwise(found):
            one.is_over = True
        if found:
            found[-1].is_over = it.ended is not None
        return found

    def parts_of(self, it):
        """Returns an operation's parts: for each number that it uses a part with a part for each
        bit."""
        size, readers = self.tower.size or self.tower.readers, self.tower.readers
        bits = [
            Part(list(group), "regular")
            for _, group in itertools.groupby(
                self.bits_of(it), lambda bit: (bit.is_write, bit.cell // readers)
            )
        ]
        return [
            Part(list(group), "unary")
            for _, group in itertools.groupby(
                bits, lambda bit: (bit.is_write, bit.cell // (size * readers))
            )
        ]

    def register(self, part):
        """Returns the number of the register that a part is of."""
        return part.cell // (self.tower.size * self.tower.readers)

    def remembered(self, register, place):
        """Returns the last stamp of a register's writer, and the best code of its reader."""
        first = register * (self.tower.size + MORE_WORDS) + self.tower.size
        return self.words[place][first : first + MORE_WORDS]

    def stamp(self, part, place):
        return self.remembered(self.register(part), place)[0]

    def best(self, part, place):
        return self.remembered(self.register(part), place)[1]

    def greatest(self, it):
        """Returns the greatest tagged code of the column that a matrix's operation read."""
        return max(
            self.best(one, one.end + 1) % self.tower.tagged for one in it.parts if not one.is_write
        )

    def entry(self, it):
        """Returns the name of the first register of the column that has its greatest tagged
        code."""
        code = self.greatest(it)
        return next(
            self.tower.registers[self.register(one)]
            for one in it.parts
            if not one.is_write and self.best(one, one.end + 1) % self.tower.tagged == code
        )

    def tagged_code(self, it):
        """Returns the tagged code that a matrix's operation writes to its row."""
        code = self.greatest(it)
        if it.words == "read":
            return code
        return (
            (self.tower.tag(code)[0] + 1) * self.tower.side + it.process
        ) * self.tower.values + int(it.words.split()[1])

    def written(self, it, part):
        """Returns the number that a part writes."""
        if self.tower.kind == "unary":
            return int(it.words.split()[1])
        stamp = self.stamp(part, part.begin)
        if self.tower.kind == "stamped":
            return stamp * self.tower.values + int(it.words.split()[1])
        return stamp * self.tower.tagged + self.tagged_code(it)

    def index(self, bit):
        """Returns a bit's place in its number."""
        return bit.cell % ((self.tower.size or 1) * self.tower.readers) // self.tower.readers

    def result_of_read(self, it, bit):
        """Returns what a read of a bit gave, and whether it was hit."""
        chosen = self.chosen.get((bit.end, it.process))
        cell = self.pages["bits"][bit.end][bit.parts[0].cell if bit.parts else bit.cell].split()
        return (int(cell[1]), False) if chosen is None else (chosen, True)

    # ---- what is to be drawn

    def passed_words(self, number, part, bit):
        """Returns the words for the bits that a write of a number passes around one of its writes
        of bits."""
        ends = [self.index(one) for one in part.parts] + [-1] * part.is_over
        at = part.parts.index(bit)
        groups = [
            range((ends[each - 1] if each else number + 1) - 1, ends[each], -1)
            for each in range(len(ends))
        ]
        found = [
            *groups[at],
            *(groups[at + 1] if bit is part.parts[-1] and at + 1 < len(groups) else []),
        ]
        for one in found:
            cell = (
                self.register(part) * self.tower.size * self.tower.readers
                + one * self.tower.readers
            )
            assert self.bits[bit.begin][cell] == (
                "1" if one == number else "0"
            ), f"bit {one} is passed"
        zeros = sorted(set(found) - {number})
        runs = [
            [one for _, one in group]
            for _, group in itertools.groupby(enumerate(zeros), lambda it: it[1] - it[0])
        ]
        names = ", ".join(
            f"{run[0]}"
            if len(run) == 1
            else f"{run[0]}, {run[-1]}"
            if len(run) == 2
            else f"{run[0]} to {run[-1]}"
            for run in runs
        )
        words = [f"bit {number} is 1"] * (number in found)
        words += [
            f"{'bits' if len(zeros) > 1 else 'bit'} {names} {'are' if len(zeros) > 1 else 'is'} 0"
        ] * bool(zeros)
        return f" (skipped: {', '.join(words)} already)" if words else ""

    def title_of_bit(self, it, part, bit):
        index = self.index(bit)
        if bit.is_write:
            number = self.written(it, part)
            return f"bit {index} := {int(index == number)}{self.passed_words(number, part, bit)}"
        if not bit.is_over:
            return f"bit {index} is being read"
        value, is_hit = self.result_of_read(it, bit)
        return f"bit {index} hit, chosen {value}" if is_hit else f"bit {index} is {value}"

    def title_of_copy(self, it, part, copy):
        value = (
            int(self.index(copy) == self.written(it, part))
            if self.tower.size and copy.is_write
            else it.words.split()[-1]
        )
        if copy.is_write:
            return f"copy for p{copy.cell % self.tower.readers + 1} := {value}"
        return f"its copy is {self.result_of_read(it, copy)[0]}" if copy.is_over else "its copy"

    def title_of_number(self, it, part):
        noun = "" if self.tower.kind == "unary" else "code "
        if part.is_write:
            return f"write {self.tower.brief(self.written(it, part))}"
        index = self.index(part.parts[-1])
        return (
            f"scan up to bit {index}: {self.tower.brief(index) if noun else index}"
            if part.is_over
            else f"scan, at bit {index}"
        )

    def title_of_register(self, it, part):
        name = self.tower.registers[self.register(part)]
        if part.is_write:
            code = self.written(it, part)
            return f"{name} := {self.tower.tag_words(code % self.tower.tagged)} (stamp {code // self.tower.tagged})"
        if not part.is_over:
            return f"read {name}"
        best, found = self.best(part, part.end + 1), self.index(part.parts[-1])
        kept = "" if best == found else f" (remembered; found code {found})"
        return f"read {name}: {self.tower.tag_words(best % self.tower.tagged)}{kept}"

    def nests(self):
        """Returns each inner operation that is to be drawn: its layer, process, places, and
        words."""
        found, titles = [], {"stamped": self.title_of_register, "unary": self.title_of_number}
        for it in self.operations:
            for part in it.parts:
                for layer in self.tower.layers:
                    if layer in titles:
                        found.append((it, layer, part, titles[layer](it, part)))
                    for bit in part.parts if layer == "regular" else []:
                        found.append((it, layer, bit, self.title_of_bit(it, part, bit)))
                    for copy in (
                        [one for bit in part.parts for one in bit.parts]
                        if layer == "copies"
                        else []
                    ):
                        found.append((it, layer, copy, self.title_of_copy(it, part, copy)))
        return found

    def words_of_bar(self, it):
        """Returns the words on an operation's own bar."""
        kind, is_read = self.tower.kind, it.words == "read"
        if not it.parts:
            return it.words
        if kind == "matrix":
            if not any(one.is_write for one in it.parts):
                return f"{it.words}: reads its column"
            entry = f"{self.entry(it)}: " if is_read else ""
            return f"{it.words} = {entry}{self.tower.tag_words(self.tagged_code(it))}"
        part = it.parts[0]
        if not is_read:
            return (
                f"{it.words} = {self.tower.named(self.written(it, part))}"
                if kind == "stamped"
                else it.words
            )
        if not part.is_over:
            return it.words
        found = self.index(part.parts[-1])
        if kind == "unary":
            return f"read: the first 1 that it found is bit {found}"
        if kind == "stamped":
            best = self.best(part, part.end + 1)
            return (
                f"read: found {self.tower.named(found)}"
                if best == found
                else f"read: found code {found}, but remembers {self.tower.named(best)}"
            )
        value, is_hit = self.result_of_read(it, part.parts[0])
        return f"read: bit {part.parts[0].cell} {'was hit, chosen' if is_hit else 'is'} {value}"

    def scanned(self, register, place):
        """Returns the numbers that a reader's scan finds if all bits stay as they are: either value
        of one that is written."""
        found, size, readers = set(), self.tower.size, self.tower.readers
        cells = [
            it.split()[1:3]
            for it in self.pages["bits"][place][: size * readers * max(1, self.tower.side) ** 2]
        ]
        for copy in range(readers):
            mine = cells[
                register * size * readers + copy : (register + 1) * size * readers : readers
            ]
            for otherwise in (0, 1):
                values = [int(value) if written == "-" else otherwise for value, written in mine]
                found.add(values.index(1))
        return found

    def going_words(self, register, place, it, part):
        """Returns the words on a band while a number is written, and whether a scan can find both
        the old and the new one."""
        written, (old,) = self.written(it, part), self.scanned(register, part.begin)
        found = self.scanned(register, place)
        assert found <= {
            old,
            written,
        }, f"a scan finds {found} while {written} is written over {old}"
        noun = "" if self.tower.kind == "unary" else "code "
        if len(found) > 1:
            return f"a scan finds {noun}{old} or {noun}{written}", True
        (number,) = found
        assert not noun or number == old, f"a scan finds {number} before {written} is written"
        return f"still {self.tower.named(number)}" if noun else f"a scan finds {number}", False

    def bands(self, register):
        """Returns what each band of a register has at each place: words, and whether a scan can
        find either of two numbers."""
        at = {"number": [], "best": [], "stamp": []}
        writes = [
            (it, part)
            for it in self.operations
            for part in it.parts
            if part.is_write and self.register(part) == register
        ]
        for place in range(self.length + 1):
            going = [(it, part) for it, part in writes if part.begin <= place <= part.end]
            at["number"].append(
                self.going_words(register, place, *going[0])
                if going
                else (self.tower.named(*self.scanned(register, place)), False)
            )
            if self.tower.kind != "unary":
                stamp, best = self.remembered(register, place)
                named = (
                    self.tower.tag_words(best % self.tower.tagged)
                    if self.tower.side
                    else self.tower.named(best)
                )
                at["best"].append((named, False))
                at["stamp"].append((f"{stamp}", False))
        return at

    def scans(self, register):
        """Returns the reads of a register's bits: their places, and whether they were hit."""
        parts = [
            (it, part)
            for it in self.operations
            for part in it.parts
            if not part.is_write and self.register(part) == register
        ]
        return sorted(
            [bit.begin, bit.end, bit.is_over and self.result_of_read(it, bit)[1]]
            for it, part in parts
            for bit in part.parts
        )

    def story_of_scan(self, it, part):
        runs = []
        for bit in part.parts:
            if bit.is_over:
                value, is_hit = self.result_of_read(it, bit)
                index = self.index(bit)
                if runs and not is_hit and not runs[-1][3] and runs[-1][2] == value:
                    runs[-1][1] = index
                else:
                    runs.append([index, index, value, is_hit])
        words = [
            f"bit {a}, hit, chosen {value}"
            if is_hit
            else f"bit {a} = {value}"
            if a == b
            else f"bits {a} to {b} = {value}"
            for a, b, value, is_hit in runs
        ]
        return f"Its scan read {'; '.join(words) or 'nothing'}"

    def story(self, it):
        """Returns what is to be said of a read that returned."""
        kind, part = self.tower.kind, it.parts[0]
        if kind in ("safe", "copies", "regular"):
            bit = part.parts[0]
            value, is_hit = self.result_of_read(it, bit)
            cell = bit.parts[0].cell
            name = f"Its copy, bit {cell}," if self.tower.readers > 1 else f"Bit {cell}"
            return (
                f"{name} was being written, so it was given the choice {value}."
                if is_hit
                else f"{name} was {value}."
            )
        if kind == "matrix":
            return self.story_of_column(it)
        first, found = self.story_of_scan(it, part), self.index(part.parts[-1])
        if kind == "unary":
            return f"{first}: the first 1 that it found is bit {found}."
        before, after = self.best(part, part.begin), self.best(part, part.end + 1)
        first, who = f"{first}: so it found {self.tower.named(found)}.", f"p{it.process}"
        assert (
            after == max(found, before) and after % self.tower.values == it.value
        ), "the greater is kept and returned"
        if after != found:
            return (
                f"{first} But {who} remembered {self.tower.named(after)}, which is greater, and gives that one's value, "
                f"{it.value}."
            )
        how = (
            "remembered that code already"
            if before == found
            else f"remembers it now, as it is greater than {before}"
        )
        return f"{first} {who} {how}."

    def story_of_column(self, it):
        words = []
        for part in (one for one in it.parts if not one.is_write):
            best, found = self.best(part, part.end + 1), self.index(part.parts[-1])
            kept = "" if best == found else f" (remembered; its scan found code {found})"
            words.append(
                f"{self.tower.registers[self.register(part)]}: {self.tower.tag_words(best % self.tower.tagged)}{kept}"
            )
        row = " and ".join(
            self.tower.registers[self.register(one)] for one in it.parts if one.is_write
        )
        code = self.greatest(it)
        assert self.tower.tag(code)[2] == it.value, "the greatest is returned"
        return (
            f"It read its column: {'; '.join(words)}. The greatest is {self.tower.tag_words(code)}, in {self.entry(it)}: it gives "
            f"that one's value, {it.value}. It wrote that to its row, {row}, so that no later read gives an older value."
        )
