"""What a crash of the machine may leave of a file, by the notes of note-file.c."""
from __future__ import annotations

import random
import struct
from collections.abc import Iterator
from dataclasses import dataclass, field

HEAD = struct.Struct("<cQQ")
# The number of last bytes that are written anew when a file is opened.
RENEWED = 1 << 23


def notes_in(text: bytes) -> Iterator[tuple[str, int, bytes]]:
    """Yields the notes: what was done, where, and the bytes of a write."""
    at = 0
    while at < len(text):
        kind, place, length = HEAD.unpack_from(text, at)
        at += HEAD.size
        yield kind.decode(), place, text[at:at + length]
        at += length


@dataclass
class Disk:
    """What is on the disk of a file for sure, and what was done to it since it was synced."""

    synced: bytes
    is_named: bool
    since: list[tuple[str, int, bytes]] = field(default_factory=list)

    def take(self, text: bytes) -> None:
        """Takes the notes of a process that has ended."""
        self.look_for_renewal(list(notes_in(text)))
        for note in notes_in(text):
            if note[0] == "S":
                for it in self.since:
                    self.synced = done(self.synced, it)
                self.since = []
            elif note[0] == "F":
                self.is_named = True
            else:
                self.since.append(note)

    def look_for_renewal(self, notes: list[tuple[str, int, bytes]]) -> None:
        """Raises unless a process writes the last bytes anew before its first sync, which may else leave them in memory."""
        kinds = [kind for kind, _, _ in notes]
        if "S" not in kinds:
            return
        text = self.synced
        for it in self.since:
            text = done(text, it)
        place = max(0, len(text) - RENEWED)
        for kind, at, written in notes[:kinds.index("S")]:
            if kind == "W" and at <= place and written == text[at:at + len(written)]:
                place = max(place, at + len(written))
        if place < len(text):
            raise AssertionError(f"the bytes from {place} on are not written anew before the first sync")

    def keep(self, text: bytes) -> None:
        """Takes what stands in the file, where the last write or cut may not have come to its end."""
        before = self.synced
        for it in self.since[:-1]:
            before = done(before, it)
        if self.since and text != done(before, self.since[-1]):
            kind, at, written = self.since.pop()
            self.since += [(kind, at, written[:len(text) - at])] if kind == "W" else []
            before = done(before, self.since[-1]) if kind == "W" else before
            if text != before:
                raise AssertionError("the notes do not tell what stands in the file")

    def left(self, dice: random.Random) -> bytes | None:
        """Returns what a crash leaves of the file now: any part of what was not synced. None if it leaves no file.

        Bytes that are written again as they stand are there afterwards, or as they were on the disk. What is lost of the head are zeros."""
        if not self.is_named and dice.random() < 0.5:
            return None
        text = whole = self.synced
        for note in self.since:
            renews = note[0] == "W" and done(whole, note) == whole
            if note[0] == "W" and not renews:
                text = text[:note[1]] + torn(note[2], dice, note[1] == 0)
            elif dice.random() < 0.5:
                text = done(text, note)
            whole = done(whole, note)
        return text


def done(text: bytes, note: tuple[str, int, bytes]) -> bytes:
    """Returns a file's text after a write, or a cut."""
    kind, at, written = note
    return text[:at] + written + text[at + len(written):] if kind == "W" else text[:at]


def torn(written: bytes, dice: random.Random, is_head: bool) -> bytes:
    """Returns what a crash leaves of bytes that were not synced: all, nothing, a beginning, or pieces of it."""
    draw = dice.random()
    if draw < 0.4:
        return written if draw < 0.2 else b""
    written = written[:dice.randrange(len(written) + 1)]
    if draw < 0.7:
        return written
    size = dice.choice([1, 7, 64, 512])
    pieces = [written[it:it + size] for it in range(0, len(written), size)]
    other = [bytes(len(it)) if is_head or dice.random() < 0.5 else dice.randbytes(len(it)) for it in pieces]
    return b"".join(piece if dice.random() < 0.6 else lost for piece, lost in zip(pieces, other))
