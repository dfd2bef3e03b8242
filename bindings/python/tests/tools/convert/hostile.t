#!/usr/bin/env python3
"""Passes hostile ids, texts and files to lexicat-convert: all come back as they were, or
are named or refused in words. What it takes is counted in seconds of a processor, not of the clock.

It takes what program.py says.
"""
import json
import os
import resource

from program import FORMATS, OF_SOURCE, fault, maps, run, tap, test
import in_children  # (which program has put on the path)

IDS = ["__proto__", "constructor", "=1+1", "+x", "-x", "'=1", '"', "'", "\\", "a\"b",
       "</resources>", "&amp;", "&lt;", "]]>", "-->", "*/", "//", "%#@a@", "#", "!", ":", "= a",
       " a ", "a.b.c", ".", "..", "a..b", "{", "}", "{{a}}", "|", "a|b", ",", ";", "\t",
       "\u202eevil", "\u200b", "\ufeff", "a" * 128, "é" * 64, "\U0001f600" * 32, "\x80", "\x85",
       "\u2028", "id", "form", "x-note", "sha256-" + "0" * 64, "%00", "%2F..%2F", "$(id)", "`id`",
       "NSStringLocalizedFormatKey"]
TEXTS = IDS + ["", "\n", "\r", "\r\n", " ", "\x00", "\x01", "\x1f", "\x7f", "\ufffe", "\uffff",
               "\\n", "a\n=1", "<b>", "<b>x</b>", "<b>x</b", "&lt;b>", "<![CDATA[x]]>",
               "<!-- x -->", "<?x?>", "@string/a", "\\@a", "?", "a\\", "\\u0041", "\\", "x" * 65535,
               "a\n[b", "a\n.b", "a\n*b", "{ \"", "{ -a }", "{ $a -> }", "<r xmlns:a=\"b\"/>",
               "a\tb", "\x0b\x0c", "\u3000a",
               "{" * 5000, "<b>" * 2000 + "</b>" * 2000]
LAUGHS = "".join(f'<!ENTITY l{n} "{f"&l{n - 1};" * 10}">' for n in range(1, 10))
ENTITIES = {
    "laughs": f'<!DOCTYPE %s [<!ENTITY l0 "lol">{LAUGHS}]>',
    "own": '<!DOCTYPE %s [<!ENTITY l9 "x">]>',
    "external": '<!DOCTYPE %s [<!ENTITY l9 SYSTEM "secret">]>',
    "parameter": '<!DOCTYPE %s [<!ENTITY %% p SYSTEM "secret"> %%p;]>',
    "type": '<!DOCTYPE %s SYSTEM "secret.dtd">', "none": "",
}
XML = {
    "android": ("resources", '<resources><string name="a">&l9;</string></resources>'),
    "xliff": ("xliff", '<xliff version="1.2"><file source-language="en" target-language="de"><body>'
              '<trans-unit id="a"><source>&l9;</source></trans-unit></body></file></xliff>'),
    "xliff2": ("xliff", '<xliff version="2.0" srcLang="en" trgLang="de"><file id="f"><unit id="a">'
               '<segment><source>&l9;</source></segment></unit></file></xliff>'),
    "stringsdict": ("plist", '<plist><dict><key>a</key><dict><key>b</key><string>&l9;</string>'
                    '</dict></dict></plist>'),
}
DEEP = ("i18next", "arb", "android", "stringsdict", "fluent", *OF_SOURCE)
count = 0


def words_of(kind):
    """The words that a format wants."""
    return ["--lang", "de"] + ["--source", "en"] * (kind in OF_SOURCE)


def in_words(kind, status, output, errors, name):
    """Sees that a run ended as it may, and that each line of it has its words."""
    global count
    count += 1
    lines = errors.split("\n")[:-1]
    if status not in (0, 3, 4, 7) or status and not lines or status in (3, 4) and output != b"" \
            or not all(line.startswith("lexicat-convert: ") for line in lines) \
            or "\u202e" in errors or any(len(line) > 2000 for line in lines):
        fault(f"{kind} {name[:60]!r}: {status} {output[:80]} {errors[-600:]!r}")


def there_and_back(kind, message, labels):
    """A message that goes out comes back as it was, or is named."""
    asked = maps({message: labels})
    status, went, errors = run(kind, "out", *words_of(kind), data=asked)
    in_words(kind, status, went, errors, message)
    if status:
        if json.dumps(message, ensure_ascii=False)[1:5] not in errors and message.isprintable():
            fault(f"{kind} {message!r}: is not named: {errors}")
        return False
    status, came, errors = run(kind, "in", *words_of(kind), data=went)
    in_words(kind, status, came, errors, message)
    wanted = json.loads(asked)
    if kind == "csv":
        wanted[message].pop("en", None)
    got = json.loads(came) if came else None
    if got != wanted and (status != 7 or got):
        fault(f"{kind} {message!r} {str(labels)[:80]}: came back as {str(got)[:80]} {errors}")
    return status == 0


def of_format(kind):
    """The labels of a text in a format."""
    if kind in OF_SOURCE:
        return lambda text: {"en": "Hello", "de": text}
    if kind == "stringsdict":
        return lambda text: {"de": ["a" + text, "b" + text]}
    return lambda text: {"de": text}


def ids_and_texts(kind):
    """Each id, and each text, in a format."""
    labels = of_format(kind)
    usual = [it for it in IDS if not any(ord(sign) < 32 for sign in it)]
    kept = sum(there_and_back(kind, message, labels("x")) for message in usual)
    texts = sum(there_and_back(kind, "key", labels(text)) for text in TEXTS)
    if not kept or not texts:
        fault(f"{kind}: {kept} ids and {texts} texts came back")
    return f"{kept} ids and {texts} texts came back, and others were named"


def seconds():
    """What children that have ended took of a processor."""
    used = resource.getrusage(resource.RUSAGE_CHILDREN)
    return used.ru_utime + used.ru_stime


def entities():
    """No entity of a file is resolved, and none is read from another file."""
    with open("secret", "w", encoding="utf-8") as file:
        file.write("open sesame")
    with open("secret.dtd", "w", encoding="utf-8") as file:
        file.write('<!ENTITY l9 "open sesame">')
    for kind, (root, body) in XML.items():
        for name, doctype in ENTITIES.items():
            began = seconds()
            data = ('<?xml version="1.0"?>' + (doctype % root if doctype else "") + body).encode()
            status, output, errors = run(kind, "in", "--lang", "de", data=data)
            in_words(kind, status, output, errors, name)
            if status != 3 or "sesame" in errors or seconds() - began > 5:
                fault(f"{kind} with entities ({name}): {status} {output} {errors}")


def encodings():
    """What is in no encoding that is read is refused, and what states a wrong one."""
    for kind in FORMATS:
        for name, data in {
            "utf-16 without a mark": 'id,de "a" = "x";\n'.encode("utf-16-le"),
            "bytes": b"\xff\x00\xfe",
            "half": b'{"a": "\xc3"}', "surrogate": b'{"@@locale": "de", "a": "\\ud800"}',
            "xml": b'<?xml version="1.0" encoding="utf-7"?><resources/>', "nothing": b"",
            "unknown": b'<?xml version="1.0" encoding="none-such"?><resources/>',
            "deep": b"[" * 100000, "deep objects": b'{"a":' * 50000, "deep xml": b"<a>" * 100000,
            "deep android": b"<resources>" + b"<a>" * 50000, "deep fluent": b"a = " + b"{" * 50000,
            "long number": b'{"a": ' + b"9" * 10000 + b"}",
            "infinite": b'{"a": 1e999, "@a": {"b": 1e999}}',
        }.items():
            status, output, errors = run(kind, "in", *words_of(kind), data=data)
            in_words(kind, status, output, errors, name)
            if name.startswith("deep") and kind in DEEP and status != 3 or b"\\ud8" in output:
                fault(f"{kind}: {name}: {output}")


def maps_that_are_none():
    """What is no language map is refused, also where Unicode is not whole."""
    for data in (b"", b"[]", b"{", b'{"a": "x"}', b'{"a": {"de": 1}}', b'{"a": {"not a tag": "x"}}',
                 b'{"a": {"de": "x", "DE": "y"}}', b'{"": {"de": "x"}}', b'{"a\\n": {"de": "x"}}',
                 b'{"kind":"site","site":"a","cells":[],"version":2}', b"\xff", b"[" * 100000,
                 b'{"a": {"de": "\\ud800"}}', b'{"\\ud800": {"de": "x"}}'):
        for kind in FORMATS:
            status, output, errors = run(kind, "out", *words_of(kind), data=data)
            in_words(kind, status, output, errors, str(data[:30]))
            if status != 3 and b"ud800" not in data:
                fault(f"{kind} out of {data[:60]}: {status} {errors}")


def files():
    """What is no file is named, and a name that shows otherwise than it is shows so in no line."""
    os.makedirs("folder", exist_ok=True)
    os.symlink("loop", "loop")
    for name in ("folder", "missing", "loop"):
        status, output, errors = run("arb", "in", name)
        in_words("arb", status, output, errors, name)
        if status != 4 or name not in errors:
            fault(f"{name}: {status} {errors}")
    os.symlink("linked.to", "link")
    with open("linked.to", "w", encoding="utf-8") as file:
        file.write('{"@@locale": "de", "a": "x"}')
    if run("arb", "in", "link")[:2] != (0, b'{"a":{"de":"x"}}\n'):
        fault("a symbolic link to a file is not read")


def large_ones():
    """Files of 4,000 messages take seconds."""
    value = {f"m{number}": {"de": f"text {number}", "x-note": "note"} for number in range(4000)}
    for kind in FORMATS:
        if kind in (*OF_SOURCE, "stringsdict"):
            continue
        began = seconds()
        _, went, _ = run(kind, "out", *words_of(kind), data=maps(value))
        _, came, _ = run(kind, "in", *words_of(kind), data=went)
        if len(json.loads(came)) != 4000 or seconds() - began > 120:
            fault(f"{kind}: {seconds() - began} seconds")


def memory_of_long_ones(kind):
    """A text of 8,000,000 bytes takes at most 8 times these."""
    size = 8_000_000
    text = "x" * size
    data = {
        "strings": f'"a" = "{text}";',
        "fluent": 'a = { "%s" }\n' % text,
        "properties": f"{text}=a",
        "android": f'<resources><string name="a">{text}</string></resources>',
        "csv": f'id,de\na,"{text}"\n',
        "arb": '{"@@locale":"de","a":"%s"}' % text,
        "i18next": '{"a":"%s"}' % text,
        "json": '{"a":"%s"}' % text,
        "xcstrings": '{"sourceLanguage":"en","strings":{"%s":{}}}' % text,
        "xliff": '<xliff version="1.2"><file source-language="en" target-language="de"><body>'
        f'<trans-unit id="a"><source>{text}</source></trans-unit></body></file></xliff>',
        "xliff2": '<xliff version="2.0" srcLang="en" trgLang="de"><file id="f"><unit id="a">'
        f"<segment><source>{text}</source></segment></unit></file></xliff>",
        "stringsdict": "<plist><dict><key>a</key><dict><key>b</key><string>%s</string></dict></dict>"
        "</plist>" % text,
    }[kind]
    peaks = []
    for given in (b"", data.encode()):
        # (of a child the system tells what it took at most)
        run(kind, "in", *words_of(kind), data=given)
        peaks.append(in_children.peak)
    times = (peaks[1] - peaks[0]) * 1024 / size
    if times > 8:
        fault(f"{times:.1f} bytes a byte")
    return f"{times:.1f} bytes a byte"


for form in FORMATS:
    test(f"ids and texts in {form}", ids_and_texts, form)
for form in FORMATS:
    test(f"the memory of a long text in {form}", memory_of_long_ones, form)
test("entities of XML", entities)
test("encodings and depths", encodings)
test("language maps that are none", maps_that_are_none)
test("files that are none", files)
test("files of 4,000 messages", large_ones)
tap.note(f"{count} hostile runs")
tap.end()
