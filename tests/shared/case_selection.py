"""Selects test cases by words on the command line: `tests/x/y.py WORD ..` runs only the cases whose names contain
one of the words, in upper or lower case. A case is an entry of a table, or a function of the script whose name
begins with `check_`. A word that is in no name is an error, which lists the names."""

import functools
import os
import re
import sys

# The names that `is_selected` has been asked about, in this order. The values are not used.
asked_names = {}
# If a script has more names, an error lists only their beginnings.
MAX_LISTED = 150


class UnknownWord(Exception):
    """A word on the command line is in the name of no case."""


def words():
    """Returns the command-line arguments that are neither options nor names of files."""
    return [word for word in sys.argv[1:] if not word.startswith("-") and not os.path.exists(word)]


def file_argument():
    """Returns the path of the first file on the command line, or None."""
    return next((os.path.realpath(word) for word in sys.argv[1:] if not word.startswith("-") and os.path.exists(word)), None)


def is_in(word, name):
    return word.lower() in name.lower()


def is_selected(*names):
    """Returns true if one of the names contains one of the words, or if the command line has no words."""
    asked_names.update(dict.fromkeys(names))
    return not words() or any(is_in(word, name) for word in words() for name in names)


def selected(names, chosen_words=None):
    """Returns those names that contain one of the words, or all if there are no words. Raises `UnknownWord` if a word is in
    none of the names. The words are those of the command line unless others are given."""
    names, chosen_words = [*names], words() if chosen_words is None else chosen_words
    unknown = [word for word in chosen_words if not any(is_in(word, name) for name in names)]
    if unknown:
        raise UnknownWord(f"no case has a name with {' or '.join(unknown)}; {description_of(names)}")
    return [name for name in names if not chosen_words or any(is_in(word, name) for word in chosen_words)]


def description_of(names):
    """Returns a text for an error that lists the names, or their beginnings if there are too many."""
    names = [*dict.fromkeys(names)]
    if not names:
        return "the script has no cases with names"
    if len(names) <= MAX_LISTED:
        return f"the names are: {'; '.join(names)}"
    beginnings = dict.fromkeys(re.sub(r"\d+", "N", re.split("[:,]", name)[0]) for name in names)
    return f"the {len(names)} names begin with (N is a number): {'; '.join(beginnings)}"


def names_in(module):
    """Returns the names of the cases of a script, or None if they are known only when the script runs them.

    A script whose cases are not its `check_` functions, or not all of them, can have a function `case_names`, which
    returns the names without building anything."""
    if hasattr(module, "case_names"):
        return module.case_names()
    if hasattr(module, "case_selection"):
        return None
    return [name.removeprefix("check_") for name in checks_of(module)]


def checks_of(module):
    """Returns the functions that `select_checks` wraps, by name."""
    return {
        name: function
        for name, function in vars(module).items()
        if name.startswith("check_") and callable(function) and name not in getattr(module, "ALWAYS", ())
    }


def select_checks(module):
    """Wraps each function of a script whose name begins with `check_`: it returns None at once unless its name is
    selected, or a selected function calls it.

    The functions in the script's list ALWAYS are not wrapped, because other functions need their results. Nothing
    is changed in a script that imports this module, because it selects its cases itself."""
    running, wrappers = [], {}

    def wrapper_of(function):
        @functools.wraps(function)
        def run_if_selected(*arguments, **keywords):
            if not running and not is_selected(function.__name__.removeprefix("check_")):
                return None
            running.append(function)
            try:
                return function(*arguments, **keywords)
            finally:
                running.pop()

        return run_if_selected

    if not words() or hasattr(module, "case_selection"):
        return
    for name, function in checks_of(module).items():
        wrappers[function] = wrapper_of(function)
        setattr(module, name, wrappers[function])
    # Dictionaries of the script may contain the same functions.
    for table in (value for value in vars(module).values() if isinstance(value, dict)):
        table.update({key: wrappers[value] for key, value in table.items() if callable(value) and value in wrappers})
