"""Previews a move of a box between two others, makes it, has an edit refused, and undoes it: move_a_box.py [PROGRAM]

It finds the package where it is installed, or beside the examples.
"""
import os
import sys

sys.path.append(os.path.join(os.path.dirname(os.path.realpath(__file__)), '..', '..', 'bindings', 'python'))
from reroute.live import Refused, Session  # noqa: E402

with Session(*sys.argv[1:]) as session:
    with session.transaction():
        session.add_box(1, 0, 0, 20, 20)
        session.add_box(2, 100, 0, 20, 20)
        session.add_box(3, 50, 80, 20, 40)
        edge = session.connect(1, 2)
    print('out of the way:', session.lines()[edge])
    with session.trial():
        session.move(3, 50, 0)
        print('would be:', session.preview()[edge])
    print('still:', session.lines()[edge])
    with session.transaction():
        session.move(3, 50, 0)
    print('between the others:', session.changes()[edge])
    try:
        with session.transaction():
            session.drop(1)
    except Refused as refused:
        print('refused:', refused)
    session.undo()
    print('back:', session.lines()[edge])
