"""lexicat-po in children of one Python."""
import in_children
from silkwaram.tools import po


def run(*words):
    """The status of lexicat-po, what it prints, and what it writes to standard error."""
    return in_children.ended(po.main, words)
