"""The tour of tour.c in Python, by ctypes over a shared object made from the archive. Its one argument is the shared object's path.

It prints the same lines, which are stored in tour.stdout.
"""

import ctypes
import sys

MOST_BYTES = 2048
MOST_CELLS = 16384
FIRST_EDITION = 1
MESSAGE_FRAME = 0
DESCRIPTION = 1
POSITION_OFFSET_LLV = 2
BSM, MAP, RSM, SPAT = 0, 1, 2, 3
UNIT_MISSING, REPEATED_SIGNAL, PHASE_NOT_LISTED, ENTRY_NOT_ONCE = 24, 51, 52, 70
LOGGER, MAP_DISPLAY, LOSS_PARTIES = 0, 1, 2
LOSS_ROWS = 32
SIGNS = 1
MOST_PLAN_CELLS = 129

Byte, Cell, Count = ctypes.c_uint8, ctypes.c_int64, ctypes.c_uint64


class LossSender(ctypes.Structure):
    """A row of a loss table."""

    _fields_ = [
        ("id", Byte * 8),
        ("kind", ctypes.c_uint16),
        ("first", Byte),
        ("last", Byte),
        ("received", ctypes.c_uint32),
        ("missed", ctypes.c_uint64),
    ]


class LossTable(ctypes.Structure):
    """A loss table, which is the caller's: the rows of the logger, and those of the map display."""

    _fields_ = [("senders", LossSender * LOSS_ROWS * LOSS_PARTIES)]


def load(path):
    """The library, with the parameters of each function: the length of a slice stands behind its pointer."""
    library = ctypes.CDLL(path)
    length = ctypes.c_size_t
    pointer = ctypes.POINTER
    library.knotsaffron_read.argtypes = [Count, pointer(Byte), length, pointer(Cell), length, pointer(Count)]
    library.knotsaffron_read.restype = None
    library.knotsaffron_write.argtypes = [Count, Count, pointer(Cell), length, pointer(Byte), length, pointer(Count)]
    library.knotsaffron_write.restype = None
    library.knotsaffron_resolve.argtypes = [Cell] * 5 + [pointer(Cell)]
    library.knotsaffron_resolve.restype = None
    library.knotsaffron_missed.argtypes = [Byte, Byte]
    library.knotsaffron_missed.restype = Count
    table = pointer(LossTable)
    library.knotsaffron_losses_start.argtypes = [table]
    library.knotsaffron_losses_start.restype = None
    library.knotsaffron_losses_report.argtypes = [table, Count, Count, pointer(Byte), Byte, pointer(Count)]
    library.knotsaffron_losses_report.restype = None
    library.knotsaffron_losses_drop.argtypes = [table, Count, Count, pointer(Byte), pointer(Count)]
    library.knotsaffron_losses_drop.restype = None
    library.knotsaffron_losses_row.argtypes = [table, Count, Count, pointer(Byte), pointer(Count)]
    library.knotsaffron_losses_row.restype = None
    for check in (library.knotsaffron_check_rsi, library.knotsaffron_check_rsm):
        check.argtypes = [pointer(Cell), length, pointer(Count)]
        check.restype = None
    library.knotsaffron_check_signal.argtypes = [pointer(Cell), length, pointer(Cell), length, pointer(Count)]
    library.knotsaffron_check_signal.restype = None
    sheets = [pointer(Cell), length, pointer(Cell), length]
    library.knotsaffron_check_plan.argtypes = [Count, *sheets, pointer(Cell), length, Count, pointer(Count)]
    library.knotsaffron_check_plan.restype = None
    library.knotsaffron_make_plan.argtypes = [Count, *sheets, Count, pointer(Cell), length, pointer(Count)]
    library.knotsaffron_make_plan.restype = None
    return library


def words(numbers):
    return " ".join(str(n) for n in numbers)


def read(library, sheet, type_number, message):
    """The answer, and the cells that were read, none of a refusal. The sheet is lent: one serves for all messages of a thread."""
    answer = (Count * 8)()
    library.knotsaffron_read(type_number, (Byte * len(message))(*message), len(message), sheet, len(sheet), answer)
    # a refusal leaves the sheet as it was, with the cells of an earlier message
    return list(answer), sheet[: answer[3]] if answer[0] == 0 else []


def write(library, edition, type_number, cells, room):
    """The answer for a sheet of an edition, and the lent bytes, of which there are `room`."""
    # an array of no bytes has no address of its own, so one more is made than is lent
    answer, message = (Count * 4)(), (Byte * (room + 1))()
    library.knotsaffron_write(edition, type_number, (Cell * len(cells))(*cells), len(cells), message, room, answer)
    return list(answer), bytes(message[:room])


def print_read(library, sheet, name, type_number, message):
    (number, place, bits, count, row, lacking, edition, asked), cells = read(library, sheet, type_number, message)
    # with every number: the edition, and the type number that was asked for
    start = f"read {name} from {message.hex(' ')}: edition {edition}, type {asked}: "
    # with 41 to 44 a row of the type table is named, which docs/ROWS.md has
    owner = f", row {row}" if row else ""
    # with 3, how many bits of the field are not there
    lack = f", {lacking} bits lack" if lacking else ""
    print(start + (f"refused {number} at bit {place}{owner}{lack}" if number else f"{bits} bits, {count} cells: {words(cells)}"))


def print_written(library, name, edition, type_number, cells):
    (number, _, _, needed), _ = write(library, edition, type_number, cells, 0)
    if number == 8:
        print(f"{name} needs {needed} bytes")
    (number, place, bits, count), message = write(library, edition, type_number, cells, MOST_BYTES)
    start = f"write {name} of edition {edition} from {words(cells)}: "
    print(start + (f"refused {number} at cell {place}" if number else f"{bits} bits, {count} bytes: {message[:count].hex(' ')}"))


def print_resolved(library, latitude, longitude, form, first, second):
    answer = (Cell * 3)()
    library.knotsaffron_resolve(latitude, longitude, form, first, second, answer)
    start = f"from {latitude} {longitude} by form {form} with {first} {second}: "
    print(start + (f"refused {answer[0]}" if answer[0] else f"latitude {answer[1]}, longitude {answer[2]}"))


def print_missed(library, old_count, new_count):
    number, missed = divmod(library.knotsaffron_missed(old_count, new_count), 256)
    print(f"count {old_count}, then {new_count}: " + (f"refused {number}" if number else f"missed {missed}"))


def print_change(start, sender, answer):
    """The row that a report or a drop tells, or the refusal."""
    print(f"{start} of {bytes(sender).hex(' ')}: " + (f"refused {answer[0]}" if answer[0] else f"row {answer[1]}"))


def print_reported(library, table, party, kind, sender, count):
    answer = (Count * 2)()
    library.knotsaffron_losses_report(table, party, kind, sender, count, answer)
    print_change(f"party {party} reports kind {kind}, count {count}", sender, answer)


def print_dropped(library, table, party, kind, sender):
    answer = (Count * 2)()
    library.knotsaffron_losses_drop(table, party, kind, sender, answer)
    print_change(f"party {party} drops kind {kind}", sender, answer)


def print_row(library, table, party, row):
    sender, answer = (Byte * 8)(), (Count * 6)()
    library.knotsaffron_losses_row(table, party, row, sender, answer)
    number, kind, first, last, received, missed = answer
    # a refusal leaves the id as it was
    held = f"kind {kind} of {bytes(sender).hex(' ')}: first {first}, last {last}, received {received}, missed {missed}"
    print(f"party {party}, row {row}: " + (f"refused {number}" if number else held))


def print_checked(check, name, cells):
    """The check is that of an RSI or that of an RSM."""
    answer = (Count * 2)()
    check((Cell * len(cells))(*cells), len(cells), answer)
    number, place = answer
    entry = "" if number == UNIT_MISSING else f" at entry {place}"
    print(f"check {name}: " + (f"rule {number}{entry}" if number else "passes"))


def print_signal_checked(library, name, signal, map_cells):
    answer = (Count * 3)()
    sheets = [(Cell * len(cells))(*cells) for cells in (signal, map_cells)]
    library.knotsaffron_check_signal(sheets[0], len(signal), sheets[1], len(map_cells), answer)
    number, node, phase = answer
    place = {PHASE_NOT_LISTED: f", node {node} of the map, phase {phase}", REPEATED_SIGNAL: f", entry {node} of the signal message"}
    print(f"check {name}: " + (f"number {number}{place.get(number, '')}" if number else "agrees"))


# The beginning of an RSI up to its presence cells, and, of an RSM too, from its message count to its reference position.
FRAME = [4, 0]
HEAD = [5, 1, 2, 3, 4, 5, 6, 7, 8, 0, 399042000, 1164074000]
# A list of one event that says neither where it is nor how far it reaches.
NOWHERE = [1, 0, 0, 0, 0, 0, 0, 0, 0, 9, 100, 0]


def rsm_of(*participants):
    """An RSM: each participant by its ptcId, with nothing that is optional but its class, or without that either."""
    cells = [RSM, *HEAD, len(participants)]
    for number, has_class in participants:
        told = [1, number, 3, 500, 0, 0, 10, -10, 0, 5, 100, 200, 0, 180, 450]
        cells += [0, 0, 0, 0, 0, int(has_class), *told] + ([0, 10] if has_class else [])
    return cells


def signal_of(*entries):
    """A signal message: an entry for each node, by its id in region 3, with the phases that it lists, each of which shows one light."""
    cells = [SPAT, 0, 0, 0, 5, len(entries)]
    for node, phases in entries:
        status = [0] * 16
        cells += [0, 0, 0, 1, 3, node, *status, len(phases)] + [cell for phase in phases for cell in (phase, 1, 0, 3)]
    return cells


# A map with node 6, which has no links, and node 7, both of region 3. One link leads to node 7 from node 6, with a movement on
# phase 1 to node 8 and one lane, whose connection to node 8 is on phase 2.
CROSSING = [MAP, 0, 5, 2]
CROSSING += [0, 0, 1, 3, 6, 0, 399042000, 1164074000]
CROSSING += [0, 1, 1, 3, 7, 0, 399043000, 1164074000, 1]
CROSSING += [0, 0, 0, 1, 1, 3, 6, 350, 1, 1, 1, 3, 8, 1]
CROSSING += [1, 0, 0, 0, 1, 0, 0, 1, 1, 0, 1, 1, 3, 8, 2]


def keep_losses(library):
    # one id that sends two kinds is two senders; kind 1, MAP, has none
    table, sender = LossTable(), (Byte * 8)(1, 2, 3, 4, 5, 6, 7, 8)
    library.knotsaffron_losses_start(table)
    for kind, count in [(BSM, 5), (BSM, 9), (RSM, 9), (MAP, 9)]:
        print_reported(library, table, LOGGER, kind, sender, count)
    # the map display has rows of its own, in which the sender is new; a third party there is not
    print_reported(library, table, MAP_DISPLAY, BSM, sender, 9)
    print_reported(library, table, LOSS_PARTIES, BSM, sender, 9)
    print_row(library, table, LOGGER, 0)
    print_dropped(library, table, LOGGER, BSM, sender)
    print_row(library, table, LOGGER, 0)
    print_row(library, table, MAP_DISPLAY, 0)


def check_messages(library):
    print_checked(library.knotsaffron_check_rsi, "an RSI with neither list", FRAME + [0, 0] + HEAD)
    print_checked(library.knotsaffron_check_rsi, "an RSI with one event", FRAME + [1, 0] + HEAD + NOWHERE)

    # the unit itself, which is 0, and vehicle 7
    unit, vehicle = (0, True), (7, True)
    print_checked(library.knotsaffron_check_rsm, "an RSM of the unit and a vehicle", rsm_of(unit, vehicle))
    # entries are counted from 0; of 24 there is none
    print_checked(library.knotsaffron_check_rsm, "an RSM with a vehicle twice", rsm_of(unit, vehicle, vehicle))
    print_checked(library.knotsaffron_check_rsm, "an RSM without the unit", rsm_of(vehicle))
    print_checked(library.knotsaffron_check_rsm, "an RSM without a class", rsm_of(unit, (7, False)))

    print_signal_checked(library, "two phases against the map", signal_of((7, [1, 2])), CROSSING)
    # node 7 is the map's second, counted from 0
    print_signal_checked(library, "one phase against the map", signal_of((7, [1])), CROSSING)
    print_signal_checked(library, "a node twice against the map", signal_of((7, [1]), (8, [1]), (7, [2])), CROSSING)
    print_signal_checked(library, "the map against itself", CROSSING, CROSSING)


# Twenty signs are packed into messages of at most so many bytes; the low limit is too low for some of them.
SIGN_COUNT, LIMIT, LOW_LIMIT = 20, 400, 60
# What the signs say, each in its turn, so that some take more room than others.
SAYINGS = [
    "Stop",
    "Give way",
    "No overtaking for 2 km",
    "Bridge: 3.5 tonnes at most",
    "Road works: left lane closed, keep to the right",
    "School: children cross from 7 to 9 and from 15 to 17",
]
# An RSI with neither list, which every message of a plan has the fields of; and the same with its signs there.
HEADER, HEADER_OF_SIGNS = FRAME + [0, 0] + HEAD, FRAME + [0, 1] + HEAD


def sign_of(number, saying):
    """A sign: its position, what it says, and one link that it is for, from node 6 to node 7."""
    return [1, 1, 0, 0, 0, 1, number, 0, 0, 0, 100 * number, -10 * number, 0, len(saying), *saying.encode("ascii"), 1, 0, 0, 6, 0, 7]


def lent(cells):
    """Cells with their count, as a call takes them."""
    return (Cell * len(cells))(*cells), len(cells)


def sheets_of(signs):
    """What a call over a plan takes before the plan: the kind, the header, and the signs behind their count."""
    return SIGNS, *lent(HEADER), *lent([len(signs)] + [cell for sign in signs for cell in sign])


def messages_of(plan):
    """The signs of each message."""
    messages, at = [], 1
    for _ in range(plan[0]):
        messages.append(plan[at + 1 : at + 1 + plan[at]])
        at += 1 + plan[at]
    return messages


def print_plan(library, signs, limit):
    """The plan, whose messages are printed, or none where it is refused; first asks how many cells it needs."""
    plan, answer = (Cell * MOST_PLAN_CELLS)(), (Count * 3)()
    library.knotsaffron_make_plan(*sheets_of(signs), limit, plan, 0, answer)
    if answer[0] == 8:
        print(f"the plan needs {answer[2]} cells")
    library.knotsaffron_make_plan(*sheets_of(signs), limit, plan, len(plan), answer)
    number, place, count = answer
    # with 72 the place is a sign that is too long even alone
    told = f"number {number}, sign {place}" if number else f"{plan[0]} messages"
    print(f"plan {len(signs)} signs for messages of at most {limit} bytes: {told}")
    for message, named in enumerate(messages_of(plan[:count]) if number == 0 else []):
        print(f"message {message}: signs {words(named)}")
    return plan[:count]


def print_plan_checked(library, name, signs, plan):
    answer = (Count * 2)()
    library.knotsaffron_check_plan(*sheets_of(signs), *lent(plan), LIMIT, answer)
    number, place = answer
    owner = "sign" if number == ENTRY_NOT_ONCE else "message"
    print(f"check {name}: " + (f"number {number}, {owner} {place}" if number else "passes"))


def print_message_written(library, message, signs):
    """The header with its signs there, how many they are, and the cells of each. As many bytes are lent as the plan allows, so that a
    longer message would be refused."""
    sheet = HEADER_OF_SIGNS + [len(signs)] + [cell for sign in signs for cell in sign]
    (number, _, _, count), _ = write(library, FIRST_EDITION, MESSAGE_FRAME, sheet, LIMIT)
    print(f"write message {message}: " + (f"refused {number}" if number else f"{count} bytes"))


def pack_signs(library):
    signs = [sign_of(number, SAYINGS[number % len(SAYINGS)]) for number in range(SIGN_COUNT)]
    plan = print_plan(library, signs, LIMIT)
    print_plan_checked(library, "the plan", signs, plan)
    for message, named in enumerate(messages_of(plan)):
        print_message_written(library, message, [signs[number] for number in named])

    # the first signs of the first two messages: where one stands in place of the other, neither stands once; where they are
    # exchanged, the first message is out of order
    one, other = 2, 2 + plan[1] + 1
    instead, exchanged = list(plan), list(plan)
    instead[one] = plan[other]
    print_plan_checked(library, "the plan with a sign in place of another", signs, instead)
    exchanged[one], exchanged[other] = plan[other], plan[one]
    print_plan_checked(library, "the plan with two signs exchanged", signs, exchanged)

    print_plan(library, signs, LOW_LIMIT)


def main():
    library = load(sys.argv[1])
    # room for every message: 128 kilobytes, made once and not for each message
    sheet = (Cell * MOST_CELLS)()
    print_read(library, sheet, "Description", DESCRIPTION, bytes.fromhex("002080"))
    print_read(library, sheet, "Description", DESCRIPTION, bytes.fromhex("002081"))
    print_read(library, sheet, "PositionOffsetLLV", POSITION_OFFSET_LLV, bytes.fromhex("08007ff0"))
    print_read(library, sheet, "PositionOffsetLLV", POSITION_OFFSET_LLV, bytes.fromhex("70"))
    print_read(library, sheet, "PositionOffsetLLV", POSITION_OFFSET_LLV, bytes.fromhex("08007f"))

    # no height; form one, whose index is 0; the longitude's number, then the latitude's
    cells = [0, 0, 2047, -2048]
    too_far = [0, 0, 2048, 0]
    print_written(library, "PositionOffsetLLV", FIRST_EDITION, POSITION_OFFSET_LLV, cells)
    print_written(library, "PositionOffsetLLV", FIRST_EDITION, POSITION_OFFSET_LLV, too_far)
    # no other edition is known, whatever the sheet is
    print_written(library, "PositionOffsetLLV", 2, POSITION_OFFSET_LLV, too_far)

    print_resolved(library, 399042000, 1164074000, cells[1] + 1, cells[2], cells[3])
    print_resolved(library, 399042000, 1164074000, 7, 1214737000, 312304000)
    print_resolved(library, 900000000, 0, 1, 0, 2)
    # round the ring, one place east of its last; and from a reference that means nothing
    print_resolved(library, -182000000, 1800000000, 1, 1, 0)
    print_resolved(library, 900000001, 1800000001, 1, 1, 0)

    for old_count, new_count in [(127, 0), (5, 9), (5, 5), (5, 128)]:
        print_missed(library, old_count, new_count)

    keep_losses(library)
    check_messages(library)
    pack_signs(library)


if __name__ == "__main__":
    main()
