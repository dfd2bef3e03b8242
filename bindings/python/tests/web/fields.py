"""Accept-Language fields: of browsers and other programs, hostile ones, and generated ones,
which are made of SEED."""
import os
import random

BROWSERS = [
    # Chrome, on desktops and Android
    "en-US,en;q=0.9",
    "de-DE,de;q=0.9,en-US;q=0.8,en;q=0.7",
    "fr-CA,fr;q=0.9,en-CA;q=0.8,en;q=0.7",
    "zh-CN,zh;q=0.9,en;q=0.8",
    "zh-TW,zh;q=0.9,en-US;q=0.8,en;q=0.7",
    "zh-HK,zh;q=0.9,en;q=0.8",
    "zh-SG,zh;q=0.9",
    "pt-BR,pt;q=0.9,en-US;q=0.8,en;q=0.7",
    "pt-PT,pt;q=0.9,en;q=0.8",
    "es-419,es;q=0.9,en;q=0.8",
    "es-MX,es;q=0.9",
    "sr-RS,sr;q=0.9,en-US;q=0.8,en;q=0.7",
    "nb-NO,nb;q=0.9,no;q=0.8,nn;q=0.7,en-US;q=0.6,en;q=0.5",
    "ja,en-US;q=0.9,en;q=0.8",
    "ko-KR,ko;q=0.9,en-US;q=0.8,en;q=0.7",
    "uk-UA,uk;q=0.9,ru;q=0.8,en-US;q=0.7,en;q=0.6",
    "fil-PH,fil;q=0.9,en-US;q=0.8,en;q=0.7",
    "iw-IL,iw;q=0.9,en-US;q=0.8",
    "ar-AE,ar;q=0.9,en;q=0.8",
    # Firefox
    "en-US,en;q=0.5",
    "de,en-US;q=0.7,en;q=0.3",
    "fr,fr-FR;q=0.8,en-US;q=0.5,en;q=0.3",
    "zh-CN,zh;q=0.8,zh-TW;q=0.7,zh-HK;q=0.5,en-US;q=0.3,en;q=0.2",
    "zh-TW,zh;q=0.8,en-US;q=0.5,en;q=0.3",
    "pt-BR,pt;q=0.8,en-US;q=0.5,en;q=0.3",
    "sr,sr-RS;q=0.8,sr-CS;q=0.6,en-US;q=0.4,en;q=0.2",
    "es-AR,es;q=0.8,en-US;q=0.5,en;q=0.3",
    "nb-NO,nb;q=0.9,no-NO;q=0.8,no;q=0.6,nn-NO;q=0.5,nn;q=0.4,en-US;q=0.3,en;q=0.1",
    "cs,sk;q=0.8,en-US;q=0.5,en;q=0.3",
    "ca,en-US;q=0.7,en;q=0.3",
    # Safari, on desktops and iOS
    "en-GB,en;q=0.9",
    "zh-CN,zh-Hans;q=0.9",
    "zh-TW,zh-Hant;q=0.9",
    "zh-HK,zh-Hant;q=0.9",
    "pt-BR,pt;q=0.9",
    "pt-PT,pt;q=0.9",
    "de-de",
    "fr-ch",
    "zh-cn",
    # Edge, and Internet Explorer
    "en-US,en;q=0.9,de;q=0.8",
    "zh-CN,zh;q=0.9,en;q=0.8,en-GB;q=0.7,en-US;q=0.6",
    "zh-Hans-CN,zh-Hans;q=0.8,en-US;q=0.5,en;q=0.3",
    "zh-Hant-TW,zh-Hant;q=0.5",
    "de-CH",
    "fr-BE,fr;q=0.8,nl;q=0.5",
    # curl, wget and what is built on them, crawlers
    None,
    "*",
    "en",
    "en-us,en;q=0.5",
    "en-US,*",
]
HOSTILE = [
    "",
    " ",
    ",",
    "*;q=0",
    "en;q=0, *;q=0",
    "ja, *;q=0",
    "en;q=0",
    "en_US",
    "fr;q=2, en",
    ";q=1",
    "fr;q=nan",
    "fr\t;\tq=0.5",
    "fr;q=0.5;q=1",
    "\xe9, fr",
    "\xff" * 300,
    "\x01\x02",
    "fr\x0b, en",
    "-",
    "en-",
    "x",
    "i-klingon",
    "a" * 9,
    "fr-" + "-".join(["abcdefgh"] * 40),
    "%s%n{0}{}",
    "${jndi:ldap://x}",
    "<script>",
    "'; DROP TABLE languages; --",
    "fr" + "," * 65533,
    "fr" + "," * 65534,
    "," * 65536,
    "en;q=0," * 10000,
    "\xe9" * 40000 + ", fr",
    "a" * 70000,
]
RANGES = (
    "en en-US en-GB EN fr fr-CA fr-CH FR-fr de de-CH de-AT-1996 es es-419 es-MX es-AR pt pt-PT"
    " pt-BR zh zh-CN zh-TW zh-HK zh-MO zh-SG zh-MY zh-Hans zh-Hant zh-Hans-CN zh-Hant-TW zh-CN-x-a"
    " sr sr-RS sr-Latn sr-Latn-RS sr-Cyrl nb no nn it ja ko ru uk ar ar-DZ hy kk uz tlh xx x-a"
    " i-klingon en-x-a-b de-a-b-c"
).split()
WEIGHTS = ["", "", "", ";q=0.9", ";q=0.5", ";q=0.25", ";q=1", "; Q=0.8", " ;q=0.123", ";q=1.000"]
SEPARATORS = [",", ",", ", ", " ,\t"]
MALFORMED = ["en_US", "fr;q=2", "de;q=.5", "a b", "*-CH", "fr;level=1", "\xe9", "-", "", '"fr"']
REFUSALS = [";q=0", ";q=0.0", "; q=0.000"]


def _element(rng):
    chance = rng.random()
    if chance < 0.06:
        return rng.choice(MALFORMED)
    if chance < 0.12:
        return rng.choice([*RANGES, "*", "*"]) + rng.choice(REFUSALS)
    if chance < 0.16:
        return "*" + rng.choice(WEIGHTS)
    return rng.choice(RANGES) + rng.choice(WEIGHTS)


def generated(count):
    """So many fields, each another one."""
    rng = random.Random(f"{os.environ['SEED']} fields")
    made = {}
    while len(made) < count:
        elements = [_element(rng) for _ in range(rng.choice([1, 1, 2, 2, 3, 4, 6, 9]))]
        if rng.random() < 0.02:
            elements = ["tlh-x-" + "a" * 8] * 30 + elements
        made[rng.choice(SEPARATORS).join(elements)] = None
    return list(made)
