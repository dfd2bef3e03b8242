"""A server over loopback, and what it answers to readers."""
import collections
import http.client
import urllib.parse

# (the end of a hang alone)
MOST_SECONDS = 300
Answer = collections.namedtuple("Answer", "status headers body")


class Server:
    def __init__(self, address):
        self.address = urllib.parse.urlsplit(address).netloc

    def ask(self, *fields, path="/", method="GET", cookie=None):
        """Returns the answer to a request with these Accept-Language headers, or status 0."""
        asked = http.client.HTTPConnection(self.address, timeout=MOST_SECONDS)
        try:
            asked.putrequest(method, path)
            for field in fields:
                asked.putheader("Accept-Language", field.encode("latin-1"))
            if cookie:
                asked.putheader("Cookie", cookie)
            asked.endheaders()
            got = asked.getresponse()
            return Answer(got.status, got.headers, got.read().decode())
        except (OSError, http.client.HTTPException) as fault:
            return Answer(0, http.client.HTTPMessage(), f"no answer: {fault!r}")
        finally:
            asked.close()
