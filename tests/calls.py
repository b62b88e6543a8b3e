"""The cases that the program calls_run runs, and what it must print, worked out by the second program.

python3 tests/calls.py script     writes the cases, one to a line: those of words.py, of streams.py and of texts.py
python3 tests/calls.py answers    writes the answers, one to a line
"""

import streams
import texts
import words
from cases import print_chosen

words.every_case()
streams.every_case()
texts.every_case()
print_chosen("calls_run")
