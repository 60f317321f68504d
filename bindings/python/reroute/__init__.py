"""Right-angled connectors for diagrams: the cheapest line of each round the other boxes, kept apart from the others.

    >>> from reroute import Session
    >>> with Session() as session:
    ...     with session.transaction():
    ...         session.add_box(1, 0, 0, 20, 20)
    ...         session.add_box(2, 100, 0, 20, 20)
    ...         connector = session.connect(1, 2)
    ...     session.lines()[connector]
    [(0.0, 0.0), (100.0, 0.0)]

Lengths are in units of the diagram, kept to thousandths. `changes()` tells the lines that differ from those told last:

    >>> session = Session('graph [ node [ id 1 graphics [ x 0 y 0 w 20 h 20 ] ] '
    ...                   'node [ id 2 graphics [ x 100 y 0 w 20 h 20 ] ] edge [ source 1 target 2 ] ]')
    >>> screen = session.lines()
    >>> with session.trial():
    ...     session.move(2, 100, 50)
    ...     session.preview_changes()
    {1: [(0.0, 0.0), (0.0, 50.0), (100.0, 50.0)]}
    >>> with session.transaction():
    ...     session.cut(1)
    >>> session.changes()
    {1: []}

`boxes()`, `connectors()` and `settings()` read the scene: that of the open transaction if one is open.

    >>> session.boxes()[1]
    Box(id=2, x=100.0, y=0.0, w=20.0, h=20.0, is_group=False, pins=[])
    >>> session.close()

`shared_paths()`, `crossings()` and `check()` answer questions about the lines:

    >>> with Session('graph [ node [ id 1 graphics [ x 0 y 0 w 20 h 20 ] ] '
    ...              'node [ id 2 graphics [ x 100 y 0 w 20 h 20 ] ] edge [ source 1 target 2 ] ]') as session:
    ...     session.check(1, [(0, 0), (100, 0)]), session.check(1, [(0, 0), (100, 10)])
    (Verdict(breach=None, place=None, box=None, cost=100.0), Verdict(breach='Slanted', place=1, box=None, cost=None))

Where a call is refused, its transaction is dropped:

    >>> with Session() as session, session.transaction():
    ...     session.move(5, 0, 0)
    Traceback (most recent call last):
    reroute._faults.Refused: X4 UnknownNode 5

For a graph of networkx `route_graph` gives all lines at once, and `python -m reroute IN.gml -o OUT.svg` draws a file.
`reroute.live` has the same calls over the program `reroute_live`. The library is taken from the variable REROUTE_LIBRARY
if it is set, else from beside this package or where it was installed with it, else from where the system finds
libreroute.so.0.
"""
from ._faults import Code, Refused
from ._graph import route_graph
from ._session import Box, Connector, Corners, Lines, Pin, Session, Settings, SharedPath, Verdict

__all__ = ['Box', 'Code', 'Connector', 'Corners', 'Lines', 'Pin', 'Refused', 'Session', 'Settings', 'SharedPath', 'Verdict',
           'route_graph']
__version__ = '0.1.0'
