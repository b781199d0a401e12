"""The model of `driving_model`, with data: what servers have to do so that no acknowledged write is lost unnamed.

`rules` has each duty with a switch, `copies` what a server has of a shard and how copies compare, `following` who
copies from whom and who is counted, `asking` questions between replicas, `serving` what is executed, acknowledged and
shown, `reopening` what may be lost and who is told so, `laws` what may never be seen. `plays` has a worked play for
each rule.

With `--built` the form of a shard's number of copies that is built stands in place of the full one, and with `--small`
one that has more: SMALL.md has their rules, `plays_built` and `plays_small` plays, `built` the former's reopening.

smpland and its servers keep the built form (docs/DECISIONS.md says why no more): `driving_model` is the same without
data.

What it leaves out: more than five servers; a disk that goes back and does not know it; a server that was given up and
comes back with its slots; a controller that goes on from an older copy of its journal; forged messages. Whom a follower
finds as the one that serves is read off the world.
"""
