"""Looks at what the servers have in the end, and at what clients were told: it shares nothing with smplan_pg."""
import json
import re
import time
from collections import Counter, defaultdict

import clock
import psycopg

LITTLE = "clients wrote next to nothing"

# How a server refuses a plain write of a shard that it does not serve, or does not have.
REFUSED = (psycopg.errors.lookup("57P04"), psycopg.errors.UndefinedTable)


def lasting(look, seconds):
    """What is wrong, and is so for some seconds of the clock."""
    until = clock.now() + seconds
    while True:
        try:
            wrong = look()
        except (psycopg.Error, OSError, LookupError, ValueError) as why:
            wrong = [f"{type(why).__name__} {why}".strip()]
        if not wrong or clock.now() > until:
            return wrong
        time.sleep(0.2)


def acknowledged(folder):
    """What clients were told, by shard, and what else they noted."""
    by_shard, notes = defaultdict(list), []
    for path in sorted(folder.glob("acknowledged-*.jsonl")):
        for line in path.read_text().splitlines():
            row = json.loads(line)
            if isinstance(row[4], str):
                notes.append(f"{row[1]}: {row[4]}")
            else:
                by_shard[row[0]].append(row)
    return by_shard, notes


def told_wrong(folder):
    """What clients have noted, except that they were not served."""
    lines = (line for path in folder.glob("acknowledged-*.jsonl") for line in path.read_text().rpartition("\n")[0].splitlines())
    rows = (json.loads(it) for it in lines if '"fault ' in it or '"other reply"' in it)
    return [f"{row[1]}: {row[4]}" for row in rows]


def plain_faults(fleet, shard, owner, losses):
    """Statements of clients that know nothing of shards, committed and lost, though no server was lost around then."""
    rows = [json.loads(line) for path in sorted(fleet.folder.glob("plain-*.jsonl")) for line in path.read_text().splitlines()]
    has = {it for (it,) in fleet.posts[owner].query(f'SELECT id FROM "{shard}".notes')}
    wrong = [note for its, note, asked, told in rows if its == shard and note not in has and not any(begun < told and asked < ended for begun, ended in losses)]
    return [f"{shard}: {len(wrong)} statements were committed and are lost: {wrong[:3]}"] if wrong else []


def shard_faults(fleet, shard, owner, rows):
    """What is wrong with one shard, as its primary has it."""
    wrong = []
    post = fleet.posts[owner]
    done = dict(post.query(f'SELECT id, reply FROM "{shard}".sm_requests'))
    history = Counter(it for (it,) in post.query(f'SELECT request FROM "{shard}".history'))
    torn = post.query(f'''SELECT count(*) FROM "{shard}".accounts a LEFT JOIN (SELECT account, sum(delta) AS delta FROM "{shard}".history
        GROUP BY account) h ON h.account = a.id WHERE a.balance <> coalesce(h.delta, 0)''')[0][0]
    rows_wanted = json.loads((fleet.folder / "setup.json").read_text())["rows"]
    rows_found = post.query(f'SELECT count(*) FROM "{shard}".accounts')[0][0]
    if rows_found != rows_wanted:
        wrong.append(f"{shard}: {rows_found} accounts of {rows_wanted}")
    ids = post.query(f'SELECT count(*), count(DISTINCT id) FROM "{shard}".history')[0]
    wrong += [f"{it[1]} was acknowledged and is lost" for it in rows if it[1] not in done or it[1] not in history]
    wrong += [f"{it[1]} was told {it[4]}, stored is {done[it[1]]}" for it in rows if it[1] in done and done[it[1]] != json.dumps(it[4])]
    wrong += [f"{it} was executed {n} times" for it, n in history.items() if n != 1]
    if torn or len(history) != len(done) or ids[0] != ids[1]:
        wrong.append(f"{shard}: {torn} accounts are not the sum of their history; {len(done)} identities, {len(history)} in history")
    return wrong


SUM = '''SELECT md5(coalesce((SELECT string_agg(id || ' ' || reply, ',' ORDER BY id) FROM "{0}".sm_requests), '')
    || (SELECT sum(balance * id) FROM "{0}".accounts) || coalesce((SELECT string_agg(request, ',' ORDER BY request) FROM "{0}".history), '')
    || (SELECT count(*) FROM "{0}".accounts) || coalesce((SELECT string_agg(id, ',' ORDER BY id) FROM "{0}".notes), '') || (SELECT sum(writes) FROM "{0}".sm_counters)
    || coalesce((SELECT string_agg(server || ' ' || was_owner, ',' ORDER BY server) FROM "{0}".sm_members), '')
    || coalesce((SELECT string_agg(view || ' ' || position, ',' ORDER BY view) FROM "{0}".sm_views), '') || (SELECT count(*) FROM "{0}".sm_cut)
    || coalesce((SELECT view || ' ' || position FROM "{0}".sm_begun), ''))'''


def replica_faults(fleet, shard, cells):
    """Replicas that differ."""
    sums = {it: fleet.posts[it].query(SUM.format(shard))[0][0] for it in cells}
    return [f"{shard}: replicas differ: {sums}"] if len(set(sums.values())) > 1 else []


def guard_faults(fleet, shard, owner, names):
    """Servers that take a plain write and do not serve the shard, or refuse it and do."""
    wrong = []
    for name in names:
        try:
            fleet.posts[name].query(f'UPDATE "{shard}".accounts SET filler = filler WHERE id = 1')
            taken = True
        except REFUSED:
            taken = False
        if taken != (name == owner):
            wrong.append(f"{shard}: {name} {'takes' if taken else 'refuses'} a plain write, and {owner} is the primary")
    return wrong


def leftovers(fleet, names, shards):
    """What stands at servers and belongs to nobody."""
    wrong = []
    for name in names:
        has = {shard for shard, cells in shards.items() if name in cells}
        primary = {shard for shard, cells in shards.items() if cells.get(name) == "primary"}
        schemas = {it for (it,) in fleet.posts[name].query("SELECT nspname FROM pg_namespace n JOIN pg_class c ON relnamespace = n.oid AND relname = 'sm_counters' "
                                                           "WHERE nspname NOT LIKE 'sm\\_aside%'")}
        if schemas != has:
            wrong.append(f"{name}: schemas {sorted(schemas)}, has {sorted(has)}")
        told = fleet.posts[name].query("SELECT subname FROM pg_subscription JOIN pg_database d ON d.oid = subdbid WHERE datname = current_database() ORDER BY 1")
        if len(told) != len(has - primary):
            wrong.append(f"{name}: {len(told)} subscriptions for {len(has - primary)} secondaries: {', '.join(it for (it,) in told)}")
        streams = [it for (it,) in fleet.posts[name].query("SELECT slot_name FROM pg_replication_slots WHERE database = current_database() ORDER BY 1")]
        wanted = sum(len(shards[shard]) - 1 for shard in primary)
        if len(streams) != wanted:
            wrong.append(f"{name}: {len(streams)} streams for {wanted} followers: {', '.join(streams)}")
    return wrong


# In a server's log: a row that replication brings is there already.
AGAIN = re.compile(r'ERROR:  duplicate key .*\n.*DETAIL:  Key (.*) already exists\.\n.*CONTEXT:  processing remote data .* target relation "(.*?)"')


def conflicts(folder):
    """Writes that came to a follower again, as servers' logs say: what brings them stands still, and tries them for ever."""
    found = {}
    for path in sorted(folder.glob("pg-?.log")):
        for told in AGAIN.finditer(path.read_text(errors="replace")):
            found.setdefault(path.stem[-1], f"{told[2]} {told[1]}")
    return [f"{name}: what it has came to it again: {what}" for name, what in found.items()]


def gaps_of(rows, begun, ended):
    """The longest time without an acknowledged write between two moments."""
    acks = sorted(it[6] for it in rows)
    return max((y - x for x, y in zip(acks, acks[1:]) if y > begun and x < ended), default=0.0)


def waits_of(rows, begun, ended):
    """The longest time between two moments in which somebody waited for an acknowledgement, and nobody got one."""
    longest, since = 0.0, float("inf")
    acks = sorted((it[6], it[5]) for it in rows)
    for (x, _), (y, asked) in reversed(list(zip(acks, acks[1:]))):
        since = min(since, asked)
        if y > begun and x < ended:
            longest = max(longest, y - max(x, since))
    return longest


def map_faults(fleet, wanted, names):
    """Shards whose replicas are not as wanted, or not where the map's files list them."""
    wrong = []
    for shard, cells in cells_of(fleet).items():
        owner = primary_of(cells)
        listed = [json.loads(path.read_text())["entries"][shard]["to"] for path in fleet.map_files]
        if owner is None or set(listed) != {owner} or len(cells) != wanted[shard] or not set(cells) <= set(names):
            wrong.append(f"{shard}: {cells}, listed at {listed}, wanted {wanted[shard]}")
    return wrong


def cells_of(fleet):
    """What the controller says of all shards."""
    return {it["shard"]: {cell["server"]: cell["state"] for cell in it["cells"]} for it in fleet.state()["shards"]}


def primary_of(cells):
    """A shard's primary, if it has one."""
    return next((name for name, what in cells.items() if what == "primary"), None)


def check(fleet, wanted, least=100, alive=None, losses=()):
    """All that is wrong, and the figures. A loss is when it began and when the service was open again. Without what is wanted of each shard the service is
    not at rest, and it is only looked at what clients were told, and at servers' logs."""
    names = [it for it in fleet.names if alive is None or it in alive]
    by_shard, notes = acknowledged(fleet.folder)
    wrong = conflicts(fleet.folder)
    if wrong or not wanted:
        return wrong + notes, by_shard
    wrong += notes
    if sum(len(it) for it in by_shard.values()) < least:
        wrong.append(LITTLE)
    seconds = fleet.patience / 4 + 2 * fleet.dead  # (replication and the map's files may be late; streams that nobody reads are dropped by then)
    wrong += lasting(lambda: map_faults(fleet, wanted, names), seconds)
    shards = cells_of(fleet)
    for shard, cells in shards.items():
        owner = primary_of(cells)
        if owner is not None:
            wrong += lasting(lambda: plain_faults(fleet, shard, owner, losses) + shard_faults(fleet, shard, owner, by_shard[shard]), 0)
            seconds = 0 if wrong else seconds  # (nothing has to be waited for then)
            wrong += lasting(lambda: replica_faults(fleet, shard, cells), seconds)
            wrong += lasting(lambda: guard_faults(fleet, shard, owner, names), seconds)
    seconds = 0 if wrong else seconds
    return wrong + [f"not within {seconds:.0f} s: {it}" for it in lasting(lambda: leftovers(fleet, names, shards), seconds)], by_shard
