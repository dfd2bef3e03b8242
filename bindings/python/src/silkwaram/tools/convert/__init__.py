"""`lexicat-convert`: makes language maps of the files of other programs, and such files of language
maps. A format is a module, over language maps as the middle. lexicat-convert(1) has the details.
"""
from .command import main

__all__ = ["main"]
