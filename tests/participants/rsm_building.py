"""RSMs as trees, built from what their sending profile is about. All else is as small as its type allows."""

from least import frame, least, sequence
from sheets import is_long, sheet_of
# sheets knows where the folder of the cases is
from generate import Chance, full


def participant(ptcId, vehicle=True, **given):
    """A participant with this ptcId, with a vehicleClass or without one, and with these components."""
    return sequence("ParticipantData", **{"ptcId": ptcId, "vehicleClass": least("VehicleClassification") if vehicle else None, **given})


def rsm(*participants):
    return frame("rsmFrame", participants=list(participants))


def of_ids(ids, lacking=()):
    """An RSM of participants with these ids; those at the places of `lacking` have no vehicleClass."""
    return rsm(*[participant(id, place not in lacking) for place, id in enumerate(ids)])


def full_of_ids(ids, lacking=()):
    """The same of participants with all that they may have; ids: as many as there is room for."""
    body = full("RoadsideSafetyMessage", Chance(1))
    entries = [dict(one, ptcId=id) for one, id in zip(body["participants"], ids)]
    for place in lacking:
        del entries[place]["vehicleClass"]
    return frame("rsmFrame", **dict(body, participants=entries))


def long_map():
    """A map of more than 2,048 bytes: no RSM has so many, whatever is in it."""
    links = [sequence("Link", lanes=[least("Lane")] * 32)] * 32
    message = frame("mapFrame", nodes=[sequence("Node", inLinks=links)])
    if not is_long(sheet_of(message), message):
        raise ValueError("a message that is to be long is not")
    return message
