"""The page in a browser: each test has a browser of its own with a fresh profile, opens the file as
a person would, and fails also if the console has a line."""
import functools
import inspect
import os
import tempfile
import threading

from pages import (
    answers,
    build,
    chromium,
    click_costs,
    depths,
    drawn,
    exercises,
    faults,
    firefox,
    gestures,
    lessons,
    page_costs,
    policy,
    screens,
    sharing,
)
from pages.opened_page import Page
from trials import Test

ALL = {
    "gestures": (
        "first_screen",
        "lesson_by_clicks",
        "processes",
        "steps",
        "branches",
        "breaks",
        "keyboard",
        "files",
        "sessions",
        "typed",
        "tower_limits",
        "copied_script",
        "paper",
    ),
    "depths": ("layers", "reasons", "square", "scale", "refusals", "two_towers"),
    "page_costs": ("counted_pages",),
    "drawn": ("documents", "walks"),
    "exercises": ("solved_by_clicks", "wrong_choice", "goals_in_words"),
    "lessons": (
        "lessons",
        "lesson_links",
        "own_exercises",
        "a_lesson_line_by_line",
        "lesson_on_paper",
    ),
    "policy": ("policy",),
    "sharing": (
        "links",
        "short_links",
        "one_file",
        "nothing_lost",
        "which_tower",
        "forty_files",
        "judged_by",
        "hostile_documents",
    ),
    "faults": ("other_programs", "no_answer", "damaged_files", "damaged_answers"),
    "screens": ("words", "room"),
    "click_costs": ("long_schedules", "large_documents"),
}
# What needs more than the driver of Firefox has.
IN_CHROMIUM_ALONE = {
    "keyboard",
    "files",
    "paper",
    "walks",
    "goals_in_words",
    "own_exercises",
    "lesson_on_paper",
    "short_links",
    "one_file",
    "words",
    "room",
    "hostile_documents",
    *ALL["depths"],
    *ALL["page_costs"],
    *ALL["policy"],
    *ALL["faults"],
    *ALL["click_costs"],
}
IN_FIREFOX = {
    module: tuple(it for it in names if it not in IN_CHROMIUM_ALONE)
    for module, names in ALL.items()
}
# What needs the program of all answers.
OF_ALL_ANSWERS = ("lessons_ask", "predictions", "a_read", "too_many")
if build.module.SEARCH in build.module.PROGRAMS:
    ALL["answers"] = IN_FIREFOX["answers"] = OF_ALL_ANSWERS
MODULES = {
    "answers": answers,
    "gestures": gestures,
    "depths": depths,
    "page_costs": page_costs,
    "drawn": drawn,
    "exercises": exercises,
    "lessons": lessons,
    "policy": policy,
    "faults": faults,
    "screens": screens,
    "sharing": sharing,
    "click_costs": click_costs,
}


class File:
    """The page as one file, which is written when the first test asks for it."""

    def __init__(self, folder):
        self.path, self.turn = f"{folder}/towerbench.html", threading.Lock()

    def written(self):
        with self.turn:
            if not os.path.exists(self.path):
                with open(self.path, "w", encoding="utf-8") as file:
                    file.write(build.packed(build.made_modules()))
        return self.path


def fault_of(driver, work, file, given):
    """Returns what is wrong in one test; None: nothing."""
    path, browser = file.written(), driver.Browser(driver.found())
    try:
        page = Page(browser, path)
        work(
            page,
            **{name: given[name] for name in inspect.signature(work).parameters if name != "page"},
        )
        return f"the console has: {browser.complaints[0]}" if browser.complaints else None
    finally:
        browser.close()


def tests_in(driver, chosen, label, file, given):
    if not driver.found():
        return [Test(f"{label}: it isn't here", None)]
    works = [getattr(MODULES[module], name) for module, names in chosen.items() for name in names]
    return [
        Test(
            f"{label}: {it.__name__.replace('_', ' ')}",
            functools.partial(fault_of, driver, it, file, given),
        )
        for it in works
    ]


def tests(names, program, scratch):
    """Returns the tests. names: those of the cases; program: the native one."""
    file, given = File(tempfile.mkdtemp(dir=scratch)), {"names": names, "program": program}
    return tests_in(chromium, ALL, "Chromium", file, given) + tests_in(
        firefox, IN_FIREFOX, "Firefox", file, given
    )
