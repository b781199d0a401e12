"""A model of the controller, real servers, the map's owner, clients and a hostile network, in plain Python.

`controller` is the driver's reference: a deterministic state machine over commands, with replies that compare well.
`rules` has each rule with a switch, `laws` what may never be seen, `schedule` random schedules, `plays` worked ones.
`sizes` and the modules named `sized_..` have the same over sizes that change without a reopening.
The laws look at the real slots after every event; after a fair end all plans are done.

What it leaves out: random schedules have at most four servers and three shards; at a reopening shards, rooms and
loads stay; data are lists of writes, lost together with the slots; the map's owner never forgets, a server that was
given up never comes back with its slots, and no message is forged. It asks more in one thing: a secondary that is
recorded down has to have a write, too, before it is acknowledged.
"""
