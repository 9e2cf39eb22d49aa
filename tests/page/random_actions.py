"""Checks that after any random sequence of actions each row of the page has the verdict of its file, its signature and the
key.
"""

import itertools
import random

ACTIONS = 150
# The names and contents of files, the names of keys, and the pairs of a key and the content that it signs.
NAMES, DATA, KEYS = ("a.zip", "b.zip"), (b"one", b"two"), ("first", "second")
SIGNED = tuple(itertools.product(KEYS, DATA))


class Model:
    """The expected state of the page: the key, true in `is_given` if the user gave it, and the data and signature of
    each row by name, in the order of the rows."""

    def __init__(self):
        self.key, self.is_given, self.downloads = None, False, {}

    def take_files(self, files):
        """Adds the files of one drop, as (name, kind, content). The kind is "data", "signature" or "key"; the content
        of a signature is its signer and data."""
        names = {kind: [name for name, each, _ in files if each == kind] for kind in ("data", "signature")}
        is_pair = all(len(group) == 1 for group in names.values())
        for name, kind, content in files:
            if kind != "key":
                self.downloads.setdefault(names["data"][0] if is_pair else name, {})[kind] = content
            elif self.key is None:
                self.key, self.is_given = content, False
        files, signatures = (
            [name for name, parts in self.downloads.items() if missing_part not in parts]
            for missing_part in ("signature", "data")
        )
        if len(files) == len(signatures) == 1:
            self.downloads[files[0]] |= self.downloads.pop(signatures[0])

    def verdict(self, data=None, signature=None):
        """Returns the verdict of a row and its error number."""
        if data is None or signature is None or self.key is None:
            return "waiting", None
        signer, signed_data = signature
        number = 29 if signer != self.key else 0 if signed_data == data else 31
        return "bad" if number else "good" if self.is_given else "unchecked", number


def check_random_actions(person):
    """The rows and the key are those of the model, after one or several actions."""
    generator, model, actions = random.Random(20), Model(), []
    keys = {"first": person.first, "second": person.second}
    texts = {content: person.sign(content[1], content[0], trusted="t") for content in SIGNED} | {data: data for data in DATA}
    texts |= {name: key.text for name, key in keys.items()}
    person.open()
    for count in range(ACTIONS):
        actions.append(do_random_action(person, model, generator, keys, texts))
        if generator.random() < 0.4:
            continue
        label = f"action {count}, after {actions[-4:]}"
        rows = [(row.name, row.verdict, row.number) for row in person.settled_rows(label)]
        expected = [(name, *model.verdict(**parts)) for name, parts in model.downloads.items()]
        person.same(rows, sorted(expected, key=lambda row: row[1] != "bad"), label)
        key_text = f"In full: {keys[model.key].line}" if model.key else ""
        person.same(person.text_of("key-full") if person.is_shown("key-full") else "", key_text, f"{label}: the key")


def do_random_action(person, model, generator, keys, texts):
    """Does a random action, in the page and in the model, and returns a description of it."""
    kind, name = generator.choice(("type", "choose", "remove", "clear", "files", "files", "files", "files")), generator.choice(KEYS)
    key = keys[name]
    if kind == "files":
        files = [(file, part, generator.choice(contents)) for file in NAMES
                 for part, contents in (("data", DATA), ("signature", SIGNED)) if generator.random() < 0.6]
        files += [("some.pub", "key", key_name) for key_name in KEYS if generator.random() < 0.15][:1]
        sibling = person.write_file("unused", b"")
        paths = [person.write_file(f"{file}.minisig" if part == "signature" else file, texts[content], sibling)
                 for file, part, content in files]
        if files:
            person.drop("downloads", *paths)
            model.take_files(files)
        return files
    if kind == "type":
        person.type_key(generator.choice((key.text.decode(), key.line)))
    elif kind == "choose":
        person.choose_key(person.write_file("some.pub", key.text))
    else:
        person.click("key-remove" if kind == "remove" else "clear")
    if kind == "clear":
        model.downloads.clear()
    else:
        model.key, model.is_given = None if kind == "remove" else name, True
    return kind, name
