import sys

if sys.version_info < (3, 9):  # any Python can read this
    sys.stderr.write("tests: Python 3.9 or later is needed, and this is Python {}.{}\n".format(*sys.version_info[:2]))
    sys.exit(2)
