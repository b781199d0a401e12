"""All worked plays: those on data, and those of `driving_model` over data."""
from __future__ import annotations

from . import plays_asking, plays_copies, plays_driving, plays_journals, plays_losses, plays_restaged

DATA_PLAYS = plays_copies.PLAYS + plays_asking.PLAYS + plays_losses.PLAYS + plays_journals.PLAYS
PLAYS = DATA_PLAYS + plays_restaged.PLAYS + plays_driving.PLAYS
