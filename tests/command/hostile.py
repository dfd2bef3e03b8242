"""What the tests of hostile documents share: documents, and the checks of what the command says of
them. Each document has to be answered, or refused by the line that the table of refusals names
(docs/REFUSALS.md), with nothing on the output. It takes build/lexicat, or the command that LEXICAT
names.
"""
import json
import os
import subprocess
import sys

sys.dont_write_bytecode = True
HERE = os.path.dirname(os.path.realpath(__file__))
sys.path.append(f"{HERE}/../lib")
import tap  # noqa: E402

LEXICAT = os.environ.get("LEXICAT", os.path.normpath(f"{HERE}/../../build/lexicat"))
SECONDS = 1200
TEXTS = {
    1: "tag is empty",
    2: "tag is over 255 bytes",
    4: "tag is not well-formed",
    10: "message id",
    15: "delta is for site b",
    19: "not JSON",
    20: "shape",
    21: "cell order",
    22: "language repeated",
    23: "document is over 67108864 bytes",
    27: "site name",
    28: "version unknown",
    29: "time is ahead",
    30: "an edit of this site is missing here",
}
EMPTY_LINE = "site a cells 0 labels 0 last none\n"
ONE_LINE = "site a cells 1 labels 1 last 5 a 0\n"


class Checks:
    """Counts the documents, and holds those that end otherwise than they have to."""

    def __init__(self):
        self.count, self.faults = 0, []

    def ends(self, case, words, given, status, output, faults):
        given = given if isinstance(given, bytes) else given.encode()
        ran = subprocess.run([LEXICAT, *words], input=given, capture_output=True, timeout=SECONDS)
        self.count += 1
        if (ran.returncode, ran.stdout, ran.stderr) != (status, output.encode(), faults.encode()):
            said = (ran.returncode, ran.stdout[:120], ran.stderr[:120])
            self.faults.append(f"{case}: {said}, and not {(status, output[:120], faults)}")

    def answers(self, case, words, given, output):
        self.ends(case, words, given, 0, output, "")

    def refuses(self, case, words, given, number, text=None, row=None, document=1):
        in_row = "" if row is None else f" in row {row}"
        of_document = f" of document {document}" if document else ""
        line = f"refused {number}: {text or TEXTS[number]}{in_row}{of_document}\n"
        self.ends(case, words, given, 3, "", line)

    def reads(self, case, given, output=ONE_LINE):
        self.answers(case, ["status"], given, output)

    def refuses_site(self, case, given, number, **more):
        self.refuses(case, ["status"], given, number, **more)

    def refuses_row(self, case, row, number, text=None):
        self.refuses_site(case, site(row), number, text=text, row=0)
        after = site(f"{cell(id='a')},{row}")
        self.refuses_site(f"{case}, in the second row", after, number, text=text, row=1)

    def imports(self, case, maps, output):
        self.answers(f"maps: {case}", ["import", "--now", "9"], f"{site()}\n{maps}", f"{output}\n")

    def refuses_maps(self, case, maps, number, text=None, row=None):
        words, given = ["import", "--now", "9"], f"{site()}\n{maps}"
        self.refuses(f"maps: {case}", words, given, number, text=text, row=row, document=2)


def site(cells="", name='"a"', version="2"):
    return f'{{"cells":[{cells}],"kind":"site","site":{name},"version":{version}}}'


def cell(id="m", lang="en", time="5", at='"a"', count="0", label='["x"]'):
    return f"[{json.dumps(id)},{json.dumps(lang)},{time},{at},{count},{label}]"


def texts(*given):
    return json.dumps(given)


class Kind:
    """A kind of row: its members, and the command that reads a document of such rows."""

    def __init__(self, name, version):
        self.name, self.version = name, version
        self.at = '"a"' if version == "2" else "7"
        self.document = 1 if name in ("site", "edit") else 2
        self.site_kind = {"text"} if version == "2" else {"number"}
        self.kinds = [{"text"}, {"text"}, {"number"}, self.site_kind, {"number"}]
        if name != "summary":
            self.kinds.append({"null", "texts"})

    def row(self, id="m"):
        members = [json.dumps(id), '"en"', "5", self.at, "0"]
        return members if self.name == "summary" else [*members, '["x"]']

    def joined(self, members):
        row = f"[{','.join(members)}]"
        return f'["edit",0,{row}]' if self.name == "edit" else row

    def given(self, rows):
        end = f'"version":{self.version}}}'
        if self.name == "site":
            return ["status"], site(",".join(rows), self.at, self.version)
        if self.name == "edit":
            return ["replay"], f'{{"kind":"script","sites":1,"steps":[{",".join(rows)}],{end}'
        first = site(name=self.at, version=self.version)
        if self.name == "delta":
            two = f'{{"cells":[{",".join(rows)}],"kind":"delta","to":{self.at},{end}'
            return ["take"], f"{first}\n{two}"
        two = f'{{"kind":"summary","owner":{self.at},"stamps":[{",".join(rows)}],{end}'
        return ["delta"], f"{first}\n{two}"


def each_kind(*names):
    return [Kind(name, version) for name in names for version in ("1", "2")]


def run(*groups):
    """Hands over the documents of some functions, each of which is a test."""
    tap.needs(LEXICAT)
    for group in groups:
        checks = Checks()
        group(checks)
        name = group.__name__.replace("_", " ").replace("json", "JSON")
        tap.report(name, checks.faults, f"{checks.count} documents end as they have to")
    tap.end()
