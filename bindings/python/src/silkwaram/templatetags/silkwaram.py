"""`{% label "greeting" %}`: a text of a message in the active language of Django."""
from typing import Any

from django import template

from silkwaram.django import label as label_of

register = template.Library()


class Text(str):
    """A text with its language, for `lang=".."`; both are empty if there is none."""

    language = ""


@register.simple_tag(takes_context=True)  # type: ignore[misc]
def label(context: Any, id: str, place: int = 0) -> Text:
    """Returns the text at a place, from 0, of a label: see `silkwaram.django.label`."""
    found = label_of(getattr(context, "request", None), id)
    if found is None or not 0 <= place < len(found.texts):
        return Text()
    text = Text(found.texts[place])
    text.language = found.language
    return text
