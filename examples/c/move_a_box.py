"""Two boxes with a connector; a third box is moved between them, and the move is undone.

python3 move_a_box.py finds the package where it is installed, or beside the examples.
"""
import os
import sys

sys.path.append(os.path.join(os.path.dirname(os.path.realpath(__file__)), '..', '..', 'bindings', 'python'))
import reroute  # noqa: E402


def print_lines(session, title):
    """Prints the lines, in thousandths."""
    print(f'{title}:')
    for connector, corners in session.lines().items():
        print(f'  connector {connector}:', *(f'({x * 1000:.0f}, {y * 1000:.0f})' for x, y in corners))


with reroute.Session() as session:
    with session.transaction():
        session.add_box(1, 0, 0, 20, 20)
        session.add_box(2, 100, 0, 20, 20)
        session.add_box(3, 50, 80, 20, 40)
        session.connect(1, 2)
    print_lines(session, 'Box 3 out of the way')
    with session.transaction():
        session.move(3, 50, 0)
    print_lines(session, 'Box 3 between the others')
    session.undo()
    print_lines(session, 'Box 3 back')
