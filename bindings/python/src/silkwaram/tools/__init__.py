"""Programs on the files of sites: `lexicat`, the proved command in this process, and what is made
of it: `lexicat-file`, `lexicat-edit`, `lexicat-exchange`, `lexicat-po`, `lexicat-convert` and
`lexicat-check`. Each is a module with a function `main`, which gets the words of the command line
and returns the status to end with.

They are tried, and not proved. A manual page of each has the details.
"""
