"""A session in Python: a count in processor 0, its turns with what they overwrote, and the way back."""

from pp6600 import Session

P = 40970  # the place of P of processor 0

with Session() as session:
    print(session.answer(b"SET M 0 100 3410 0376\nSET P 0 100\nSTEP 50\nDUMP PP 0\n").text.decode(), end="")
    moments, _ = session.turns(10)
    for moment in moments:
        for place, number in moment.olds:
            print(f"processor {moment.processor}: place {place} was {number:o}")
    session.back(10)
    print(f"P of processor 0 is {session.numbers(P, 1)[0]:04o}")
