#!/usr/bin/env python3
"""Asks the module in headless Chromium what Node asks it too.

usage: pages.py FOLDER SCRIPT FUNCTION FILE..

Imports silkwaram.mjs and a script of FOLDER into an empty page, and prints what a function of the script returns: it
is given `load`, or what `load()` gives where its first file is JSON, and the files: JSON as values, others as bytes.
"""
import os
import sys

sys.dont_write_bytecode = True
sys.path.insert(0, os.path.join(os.path.dirname(os.path.realpath(__file__)), "../../../tests/lib"))
import chromium  # noqa: E402

CODE = """(async () => {
  const [{ load }, script] = await Promise.all([import('/silkwaram.mjs'), import('/%(script)s')]);
  const files = await Promise.all(%(files)s.map(async (file) => {
    const answer = await fetch(file);
    return file.endsWith('.json') ? answer.json() : new Uint8Array(await answer.arrayBuffer());
  }));
  const first = %(files)s[0].endsWith('.json') ? await load() : load;
  return script.%(function)s(first, ...files);
})()"""


def main(words):
    folder, script, function, *files = words
    with chromium.served(folder) as address, chromium.Browser() as browser:
        page = browser.page(f"{address}/empty.html")
        print(page.run(CODE % {"script": script, "function": function, "files": files}))


if __name__ == "__main__":
    try:
        main(sys.argv[1:])
    except chromium.Failed as failed:
        sys.exit(f"pages.py: {failed}")
