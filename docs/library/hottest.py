"""The hottest addresses: how often a processor came to each of them."""

from collections import Counter

from pp6600 import Session

with Session() as session:
    session.answer(b"SET M 0 100 1405 1701 0576 0300\nSET P 0 100\n")  # LDN 5, SBN 1, a jump back unless A is 0, and one to itself
    turns, _ = session.origins(200)
    times = Counter(turn.address for turn in turns if turn.processor == 0)
    for address, count in times.most_common():
        print(f"{address:04o} {count:o}")
