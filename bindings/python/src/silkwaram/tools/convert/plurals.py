"""The plural categories of languages: which of them the texts of a label are, by their number."""
from .common import Misfit, counted

ORDER = ("zero", "one", "two", "few", "many", "other")
# The categories of whole numbers up to 1,999, and after a line those of other numbers: of CLDR 41,
# compared with Babel 2.10.
TABLE = {
    "other": "bm bo dz id ig ja jv km ko lo ms my sah ses sg th to tpi vi wo yo yue zh",
    "one other": "af ak am an as asa ast az bal bg bn brx ce ckb da de dv ee el en eo et eu fa "
                 "ff fi fil fo fur fy gl gsw gu ha haw hi hu hy ia io is jgo ka kk kl kn ks ku ky "
                 "lb lg ln mg mk ml mn mr nb nd ne nl nn no nso ny om or os pa pcm ps rm rwk sc sd "
                 "si sn so sq st sv sw ta te ti tk tr ts ug ur uz ve wa xh yi zu ca",
    "one other | many": "es fr it pt",
    "one two other": "iu naq sat se sma smi smj smn sms",
    "one two many other": "he",
    "zero one other": "ksh lag lv prg",
    "one few other": "bs hr ro sh shi sr mo",
    "one few other | many": "cs lt sk",
    "one few many | other": "be pl ru uk",
    "one few many other": "mt",
    "one two few other": "dsb gd hsb sl",
    "one two few other | many": "br gv",
    "one two few many other": "ga",
    "zero one two few many other": "ar ars cy kw",
}


def _lists(line):
    """The categories of whole numbers, and all, of a line of the table."""
    whole, _, others = line.partition(" | ")
    named = set(line.split()) - {"|"}
    return (tuple(whole.split()), tuple(name for name in ORDER if name in named))


LISTS = {lang: _lists(line) for line, langs in TABLE.items() for lang in langs.split()}


def lists_of(lang, given=None):
    """The categories of whole numbers and all categories of a language, or those that are given."""
    if given:
        return given, given
    while lang not in LISTS and "-" in lang:
        lang = lang.rpartition("-")[0]
    return LISTS.get(lang)


def names_for(count, lang, given=None):
    """The categories that so many texts are: those of whole numbers, or all, or one of these with
    zero before them."""
    lists = lists_of(lang, given)
    if lists is None:
        raise Misfit(f"no plural categories of {lang} are known: name them by --plurals")
    for names in lists + tuple(("zero",) + it for it in lists if it[0] != "zero"):
        if len(names) == count:
            return names
    raise Misfit(f"it has {counted(range(count))}, and the plural categories of {lang} are "
                 f"{' '.join(lists[0])}")


def forms_of(texts, lang, given=None):
    """Texts by their categories. If there is none for `other`, it has the last one."""
    forms = dict(zip(names_for(len(texts), lang, given), texts))
    forms.setdefault("other", texts[-1])
    return forms


def texts_of(forms, lang, given=None):
    """The texts of categories, in their order. If whole numbers have no `other` (as in Polish,
    whose last category is many), it is that last one if this lacks or has the same text."""
    names = tuple(name for name in ORDER if name in forms)
    lists = lists_of(lang, given)
    if lists and "other" not in lists[0] and "other" in forms:
        last = lists[0][-1]
        if set(names) - {last} == set(lists[0][:-1]) | {"other"} and (
                forms.get(last, forms["other"]) == forms["other"]):
            return tuple(forms[name] for name in lists[0][:-1]) + (forms["other"],)
    if not names or names_for(len(names), lang, given) != names:
        raise Misfit(f"its plural categories are {' '.join(names) or 'none'}, and those of {lang} "
                     f"{' '.join(names_for(len(lists_of(lang, given)[0]), lang, given))}")
    return tuple(forms[name] for name in names)
