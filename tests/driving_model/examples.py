"""A placement of two shards at three servers, and plans over it."""
from driving_model.cells import ABSENT, Kind, Lead, PRIMARY, SECONDARY, Stage
from driving_model.commands import Begin, Document, Fenced, Open, Settled
from driving_model.controller import Controller
from driving_model.messages import BASE_STEP, Inventory, MAP, SlotFound
from driving_model.plans import (
    CellRight, Crown, CrownRight, Plan, RoomRight, SpareRight, Stream, add, drop, handover, signal, wait,
)

DOCUMENT = Document(
    servers=frozenset({0, 1, 2}), rooms=(10, 10, 5), loads=(4, 4), wants=(2, 1), caps=(1, 0), limit=1,
    cells=((PRIMARY, SECONDARY, ABSENT), (ABSENT, PRIMARY, ABSENT)),
)


def opened(document=DOCUMENT, epoch=0):
    """A controller over the placement, under the journal 9."""
    controller = Controller()
    controller.apply(Open(document, journal=9, epoch=epoch))
    return controller


def handover_rights(new_owner=2):
    """The rights to hand shard 0 over from server 0."""
    return {
        CrownRight(0): Crown(Lead(Stage.AT, 0), 0), CellRight(0, new_owner): ABSENT, RoomRight(new_owner): 4,
    }


def hand(name="hand"):
    """Shard 0 is handed over from server 0 to server 2."""
    return Begin(name, Plan((Stream(handover_rights(), handover(0, 0, 2)),)))


def move_secondary(name="move", target=2):
    """The secondary of shard 0 moves from server 1."""
    rights = {CellRight(0, target): ABSENT, CellRight(0, 1): SECONDARY, RoomRight(target): 4}
    return Begin(name, Plan((Stream(rights, (add(0, target, Kind.SECONDARY), drop(0, 1))),)))


def hand_by_two_streams(name="two"):
    """The same handover, by two streams: the first gives its crown to the second when the old owner forwards."""
    parcel = {CrownRight(0): Crown(Lead(Stage.HANDING, 0, 2), 0)}
    code = handover(0, 0, 2)
    streams = (Stream({}, (wait(0), *code[2:])), Stream(handover_rights(), (*code[:2], signal(0))))
    return Begin(name, Plan(streams, (parcel,)))


def drop_secondary(name="drop"):
    """The secondary of shard 0 goes."""
    return Begin(name, Plan((Stream({CellRight(0, 1): SECONDARY, SpareRight(0): 1}, (drop(0, 1),)),)))


def inventory(*cells, position=0, reached=False):
    """A server's answer to a fence."""
    return Inventory(tuple(SlotFound(it, position, reached) for it in cells))


def told(server, *cells, epoch=1, position=0, reached=False):
    """A server has answered the fence of an epoch."""
    found = Inventory() if server == MAP else inventory(*cells, position=position, reached=reached)
    return Fenced(server, epoch * BASE_STEP, found)


def settled(server, epoch=1):
    """A server has taken its settle of an epoch."""
    return Settled(server, epoch * BASE_STEP)
