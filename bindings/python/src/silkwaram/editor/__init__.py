"""A page on which translators edit the labels of a site, and its server.

    python -m silkwaram.editor site.json

serves the page on this machine. It works without a network once it was opened, and exchanges its
edits with the server's site, and so with all who have the page open. `Application` is the same for
a server of WSGI.
"""
from ._application import Application
from ._server import EditorServer

__all__ = ["Application", "EditorServer"]
