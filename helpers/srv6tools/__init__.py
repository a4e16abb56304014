"""The tools beside the program srv6: one module for each, and what they share.

They aren't proved. What nodes do with packets they leave to `srv6`; they read and write its files,
and say in words what it says in numbers.
"""

import sys

if sys.version_info < (3, 11):
    print("the tools of srv6 need Python 3.11 or later", file=sys.stderr)
    sys.exit(6)
