"""The agent: the proved library that the environment's SM_AGENT names (build/libsm_agent.so, by `make agent`), otherwise
its port to Python."""
from __future__ import annotations

import os
from pathlib import Path

from smplan import agent as port
from smplan.agent import VACANT

from .native import Agent

LIBRARY = os.environ.get("SM_AGENT")
chosen = Agent(Path(LIBRARY).resolve()) if LIBRARY else port

judge, begin, abandon, commit, seal, has_reached_cut = (
    chosen.judge, chosen.begin, chosen.abandon, chosen.commit, chosen.seal, chosen.has_reached_cut)
route, fence, take, heed, forget, may_delete = chosen.route, chosen.fence, chosen.take, chosen.heed, chosen.forget, chosen.may_delete
resumes, compare, copied, acknowledged = chosen.resumes, chosen.compare, chosen.copied, chosen.acknowledged

__all__ = ["VACANT", "judge", "begin", "abandon", "commit", "seal", "has_reached_cut", "route", "fence", "take", "heed", "forget", "may_delete",
           "resumes", "compare", "copied", "acknowledged"]
