"""Values with a name and an address, and the address that Python's email.utils.parseaddr finds in each: a line has the value, a tab and that address.

    python3 values.py SEED COUNT        (Python 3.7 or later)

The values are well formed: a name is words, quoted strings or both, every quote is closed, and signs stand in quotes only. The address is like
lost@depot and not like im:lost@depot, of which parseaddr gives `im`: it reads addresses of mail, in which a colon ends the name of a group.

values.tsv is what seed 3862 and count 200 gave; its first line has the version of Python. rust/beside/tests/parseaddr.rs looks for the address in each
of its values, and by `make parseaddr` in new ones.
"""

import random
import sys
from email.utils import parseaddr
from platform import python_version

WORDS = ["Lost", "Found", "Depot", "J.", "O'Neill", "5-9", "Büro", "Łódź", "Ñandú", "遺失物", "🧤"]
# A backslash in quotes covers the character behind it.
QUOTED = WORDS + [" ", " ", " ", "<", "<", ">", "<other@yard>", "> <", ",", ":", "@", '\\"', '\\"', "\\\\", "\\\\", "\\<", "\\>", "\\ö"]
LOCAL = ["lost", "found", "lost.property", "depot-4", "fundbüro"]
DOMAINS = ["depot", "yard", "depots.example"]


def part(draw):
    if draw.randrange(3) == 0:
        return draw.choice(WORDS)
    return '"' + "".join(draw.choice(QUOTED) for _ in range(draw.randrange(8))) + '"'


def value(draw):
    parts = [part(draw) for _ in range(draw.choice([0, 1, 1, 1, 1, 2, 2, 3]))]
    space = draw.choice(["", " ", " "]) if parts else ""
    return f"{' '.join(parts)}{space}<{draw.choice(LOCAL)}@{draw.choice(DOMAINS)}>"


def main():
    seed, count = (int(word) for word in sys.argv[1:])
    draw = random.Random(seed)
    sys.stdout.reconfigure(encoding="utf-8")
    print(f"# values.py {seed} {count}, by Python {python_version()}")
    made = {}
    while len(made) < count:
        made[value(draw)] = None
    for one in made:
        print(one, parseaddr(one)[1], sep="\t")


main()
