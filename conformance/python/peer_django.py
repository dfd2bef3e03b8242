"""Django's `parse_accept_lang_header`, which gives no items for a malformed field. Django looks up
among the languages that it has translations for, so lookup is not asked."""
from django.utils.translation.trans_real import parse_accept_lang_header

ITEMS_HAVE_NO_ORDER = True


def field(text):
    return [[one, round(weight * 1000)] for one, weight in parse_accept_lang_header(text)]
