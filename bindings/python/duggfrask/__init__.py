"""Plans channel time-slots for the cells of a wireless fieldbus, and checks finished plans.

The proved library duggfrask, called from Python:

    site = duggfrask.Site.read("samples/p1.site")
    plan = site.plan()
    plan.check(site)
    print(site.why())

A refusal is the exception `Refused`, with the number, the values and the words of docs/NUMBERS.md. Cells are numbered from
1, positions from 0. Nothing is kept between calls, so that a site may be shared by threads.
"""

from ._answers import Call, Chain, Change, Class, Flow, Found, Heaviest, Least, LoadTest, OverFull, Renumbered, Share
from ._plan import Plan, Words
from ._raw import VERSION, version
from ._refused import Refused, words
from ._site import Site, list_file, share, tidy

MOST_CELLS = 32
MOST_SLOTS = 128
MOST_CHANNELS = 16
MOST_POSITIONS = 2048
MOST_TABLE = 65536
MOST_FLOWS = 16

__all__ = [
    "Call", "Chain", "Change", "Class", "Flow", "Found", "Heaviest", "Least", "LoadTest", "OverFull", "Plan", "Refused",
    "Renumbered", "Share", "Site", "VERSION", "Words", "list_file", "share", "tidy", "version", "words",
]
