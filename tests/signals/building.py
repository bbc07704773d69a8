"""Signal messages and maps as trees, built from what the check of one against the other is about. All else is as small as its type allows."""

from least import frame, sequence


def reference(id, region=None):
    return sequence("NodeReferenceID", region=region, id=id)


def entry(id, phases, region=None):
    """A signal entry of a node, which lists these phases."""
    return sequence("IntersectionState", intersectionId=reference(id, region), phases=[sequence("Phase", id=phase) for phase in phases])


def signal(*entries):
    return frame("spatFrame", intersections=list(entries))


def movement(phase, to=(9, None)):
    return sequence("Movement", remoteIntersection=reference(*to), phaseId=phase)


def lane(*phases):
    """A lane with a connection for each phase; None stands for a connection that says none."""
    connections = [sequence("Connection", remoteIntersection=reference(9), phaseId=phase) for phase in phases]
    return sequence("Lane", connectsTo=connections or None)


def link(movements=(), lanes=((),)):
    """A link with a movement for each phase, and lanes each by the phases of its connections."""
    turns = [movement(phase) for phase in movements]
    return sequence("Link", movements=turns or None, lanes=[lane(*phases) for phases in lanes])


def node(id, *links, region=None):
    return sequence("Node", id=reference(id, region), inLinks=list(links) or None)


def map_of(*nodes):
    return frame("mapFrame", nodes=list(nodes))
