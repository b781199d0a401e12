"""The controller of smplan, which knows whom a reopening gives up."""
from __future__ import annotations

from collections.abc import Sequence

from smplan.control import Controller, Line, Pace, Servers, Session, Store

from .lost import GivenUp


class Leader(Controller):
    """Lets nothing be confirmed while a server may serve that a reopening gives up."""

    def __init__(self, session: Session, servers: Servers, store: Store, pace: Pace, lease: float) -> None:
        super().__init__(session, servers, store, pace)
        self.given_up = GivenUp(lease)
        self.led_since = 0.0

    def may_still_serve(self, state: Line) -> tuple[set[str], float]:
        """Which servers that are given up may serve yet, and for how many seconds."""
        return self.given_up.may_still_serve(state, self.led_since)

    async def follow(self, lines: Sequence[str]) -> None:
        """Feeds stored lines of others. Their replies are not acted on."""
        for reply in [self.session.feed(text) for text in lines]:
            self.given_up.heed(await reply)

    def heed(self, reply: Line) -> None:
        """Acts on the reply to a line that was stored."""
        self.given_up.heed(reply)
        super().heed(reply)

    async def do(self, command: Line) -> Line:
        """Stores a command and feeds it, unless it would confirm a reopening too early."""
        if command.get("do") == "confirm":
            names, seconds = self.may_still_serve((await self.session.ask({"do": "state"})).get("state", {}))
            if names:
                return {"fault": f"{', '.join(sorted(names))} may serve for {seconds:.1f} s yet: confirm then, or say that it is off"}
        return await super().do(command)
