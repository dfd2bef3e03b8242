"""Who may do what: the keys of a server, each with a person and the languages that are theirs.

A file of keys has a line for each person: a name, a key, a colon and languages. `*` stands for all
languages, `read` for none, and a language for those that begin with it too, as `fr` for fr-CA.

    anna Xk20fjw9s8: fr de
    boss 83jd0qkslw: *
    print k20dkcme7: read
"""
import hmac
import os
import re
from typing import List, NamedTuple, Optional, Tuple

LINE = re.compile(r"([^\s:]{1,64})\s+([A-Za-z0-9]{8,255})\s*:\s*(\S.*)", re.ASCII)
LANGUAGE = re.compile("[A-Za-z0-9]{1,8}(-[A-Za-z0-9]{1,8})*", re.ASCII)


class Person(NamedTuple):
    """Who has a key, and the languages that they edit, in lower case. None stands for all
    languages."""

    name: str
    key: str
    languages: Optional[Tuple[str, ...]]

    def may_edit(self, language: str) -> bool:
        """Whether they edit this language."""
        tag = language.lower()
        return self.languages is None or any(
            tag == it or tag.startswith(it + "-") for it in self.languages
        )

    def shown_languages(self) -> str:
        """What they edit, in words."""
        return "everything" if self.languages is None else " ".join(self.languages) or "nothing"


class KeyFault(Exception):
    """A file of keys that cannot be read."""


def is_key(text: str) -> bool:
    """Whether a text can be a key."""
    return re.fullmatch("[A-Za-z0-9]{8,255}", text, re.ASCII) is not None


def _person(line: str) -> Person:
    found = LINE.fullmatch(line)
    if not found:
        raise ValueError("NAME KEY: LANGUAGES is wanted, with a key of 8 to 255 letters and digits")
    name, key, languages = found[1], found[2], found[3].split()
    if languages == ["*"]:
        return Person(name, key, None)
    if languages == ["read"]:
        return Person(name, key, ())
    for it in languages:
        if not LANGUAGE.fullmatch(it):
            raise ValueError(f"{it} is no language")
    return Person(name, key, tuple(it.lower() for it in languages))


def _read(path: str) -> List[Person]:
    try:
        with open(path, encoding="utf-8") as file:
            lines = file.read().split("\n")
    except (OSError, ValueError) as fault:
        why = getattr(fault, "strerror", None) or "is no text of UTF-8"
        raise KeyFault(f"{path}: {why}") from None
    people: List[Person] = []
    for number, line in enumerate(lines, 1):
        if not line.strip() or line.lstrip().startswith("#"):
            continue
        try:
            person = _person(line.strip())
            if any(person.key == it.key for it in people):
                raise ValueError("this key is another person's too")
        except ValueError as fault:
            raise KeyFault(f"{path}, line {number}: {fault}") from None
        people.append(person)
    if not people:
        raise KeyFault(f"{path}: has no line of a person")
    return people


class People:
    """The people of a file of keys, which is read anew when it was changed."""

    def __init__(self, path: str) -> None:
        """Reads the file. A fault of it is a KeyFault."""
        self._path = path
        self._state: Optional[Tuple[int, ...]] = None
        self._people: List[Person] = []
        self._now()

    def _now(self) -> List[Person]:
        try:
            found = os.stat(self._path)
        except OSError as fault:
            raise KeyFault(f"{self._path}: {fault.strerror}") from None
        state = found.st_ino, found.st_size, found.st_mtime_ns, found.st_ctime_ns
        if state != self._state:
            # (who was taken out of the file is out, whatever else is wrong with it)
            self._state = None
            self._people = _read(self._path)
            self._state = state
        return self._people

    def with_key(self, authorization: str) -> Optional[Person]:
        """The person whose key a header Authorization has. A fault of the file is a KeyFault."""
        return with_key(self._now(), authorization)


class OneKey:
    """Everybody who has the one key of a server, or everybody if it has none."""

    def __init__(self, key: Optional[str]) -> None:
        self._people = [Person("-", key or "", None)]
        self._is_open = key is None

    def with_key(self, authorization: str) -> Optional[Person]:
        """The person whose key a header Authorization has."""
        return self._people[0] if self._is_open else with_key(self._people, authorization)


def with_key(people: List[Person], authorization: str) -> Optional[Person]:
    """The one of some people whose key a header Authorization has. Each is compared, so that the
    time tells nothing of a key."""
    given = authorization.encode("latin-1", "replace")
    found = [it for it in people if hmac.compare_digest(given, f"Bearer {it.key}".encode())]
    return found[0] if found else None
