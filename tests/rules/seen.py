"""What frames one behind the other are able to show of the rules program: occasions, which are counted."""

import stream
from model import Judge
from sheets import name_of, sheet_of


class Seen:
    """How often each occasion came, over frames one behind the other and their lines."""

    def __init__(self):
        self.occasions = {}

    def see(self, values, lines):
        self.map, self.rsm = None, None
        # what stands between the map in force and the frame, and what the signal messages gave with the map before
        self.between, self.given, self.given_before = set(), {}, {}
        for value, line in zip(values, lines):
            for name, here in self.occasions_of(value, line).items():
                self.occasions[name] = self.occasions.get(name, 0) + bool(here)
            self.step(value, line)

    def step(self, value, line):
        kind = "refused" if isinstance(value, str) else name_of(value)
        if kind == "mapFrame":
            self.map, self.between, self.given, self.given_before = value, set(), {}, self.given
            return
        self.between.add(kind)
        if kind == "spatFrame":
            self.given[repr(value)] = line
        if kind == "rsmFrame":
            self.rsm = value

    def occasions_of(self, value, line):
        """What there is to be seen at a frame, each with whether it is seen at this one."""
        kind = "" if isinstance(value, str) else name_of(value)
        compared = kind == "spatFrame" and self.map is not None
        return {
            "a signal message before any map": line == stream.NO_MAP,
            "51 before any map": kind == "spatFrame" and not compared and Judge().repeats(value[1]["intersections"], []),
            "51": compared and line[:2] == "51",
            "51 behind several entries": compared and line[:2] == "51" and int(line.split()[2]) > 1,
            "a signal message passes": compared and line == stream.PASSES,
            **self.failing(line, compared and line[:2] == "52"),
            **self.behind(value, line, compared),
            **self.of_maps(value, kind == "mapFrame"),
            **self.of_rsms(value, line, kind == "rsmFrame"),
            "a BSM": kind == "bsmFrame" and line == stream.NO_RULE,
        }

    def failing(self, line, here):
        """Where a signal message fails by 52: by which part of the map."""
        words = line.replace(",", "").split()
        place, phase = (int(words[2]), int(words[5])) if here else (0, 0)
        failing = self.map[1]["nodes"][place] if here else {}
        in_movements = [one for link in failing.get("inLinks", []) for one in Judge().movement_phases(link)]
        references = [Judge().reference(one["id"]) for one in self.map[1]["nodes"][:place]] if here else []
        return {
            "52 by a movement": here and phase in in_movements,
            "52 by a connection": here and phase not in in_movements,
            "52 behind another node": here and place > 0,
            "52 for a node that stands twice": here and Judge().reference(failing["id"]) in references,
            "52 in a map of more than 2,048 cells": here and len(sheet_of(self.map)) > 2048,
        }

    def behind(self, value, line, compared):
        """Where a signal message is compared: what came before it."""
        known = {name: compared and name in self.between for name in ("bsmFrame", "rsmFrame", "rsiFrame", "refused")}
        earlier = self.given_before.get(repr(value)) if compared else None
        return {
            **{"judged with %s behind the map" % name: here for name, here in known.items()},
            "passes, and failed with the map before": earlier is not None and earlier[:2] == "52" and line == stream.PASSES,
            "fails, and passed with the map before": earlier == stream.PASSES and line[:2] == "52",
        }

    def of_maps(self, value, here):
        cells = len(sheet_of(value)) if here else 0
        held = len(sheet_of(self.map)) if here and self.map else 0
        return {
            "a first map": here and not self.map,
            "a map in place of one with more cells": held > cells,
            "a map in place of one with fewer cells": cells > held > 0,
            "a map of more than 2,048 cells": cells > 2048,
            "a map of more than one node": here and len(value[1]["nodes"]) > 1,
        }

    def of_rsms(self, value, line, here):
        """What is told of an RSM, and what the one before it had."""
        participants, number = value[1]["participants"] if here else [], line[:2]
        earlier = self.rsm[1]["participants"] if here and self.rsm else []
        place = int(line.split()[2]) if here and number in ("23", "30") else 0
        ids, ids_before = ([one["ptcId"] for one in entries] for entries in (participants, earlier))
        lacking = any("vehicleClass" not in one for one in participants)
        return {
            "an RSM passes": here and line == stream.PASSES,
            "an RSM passes with 16 participants": line == stream.PASSES and len(ids) == 16,
            "23 of the unit": here and number == "23" and ids[place] == 0,
            "23 of another": here and number == "23" and ids[place] != 0,
            "23 behind several entries": here and number == "23" and place > 2,
            "23 without the unit": here and number == "23" and 0 not in ids,
            "24": here and number == "24",
            "24 beside a lacking vehicleClass": here and number == "24" and lacking,
            "30 of the unit": here and number == "30" and ids[place] == 0,
            "30 of another": here and number == "30" and ids[place] != 0,
            "30 behind several entries": here and number == "30" and place > 2,
            "an RSM passes, and has an id of the one before": line == stream.PASSES and set(ids) & set(ids_before),
            "24 behind an RSM with the unit": here and number == "24" and 0 in ids_before,
            "an RSM behind one with more participants": len(ids_before) > len(ids) > 0,
        }
