-- smplan: shards that are schemas, moved between servers while clients write. docs/POSTGRESQL.md tells how to use it.
--
-- What a server keeps stands in schema sm. What belongs to a shard stands in its schema, and moves with its data: sm_requests, sm_counters, sm_cut,
-- sm_views, sm_begun, sm_members. `smplan-pg serve` changes all of it; clients call sm.enter, sm.reply and sm.acknowledged.
--
-- The text also brings what an older one has made up to this one: smplan--1.2--1.3.sql is the same. So each statement may find its effect there, and what has
-- other columns or arguments than before is changed, or dropped first.
CREATE SCHEMA IF NOT EXISTS sm;

-- The text's version: who changes the text raises it, and the files' names.
CREATE OR REPLACE FUNCTION sm.version() RETURNS int[] LANGUAGE sql IMMUTABLE PARALLEL SAFE AS $$ SELECT ARRAY[1, 3] $$;

-- ---- what a server keeps

-- The base of the server, its number and name, and the last reopening that it has heard of. 64-bit numbers stand as signed ones of the same bits.
CREATE TABLE IF NOT EXISTS sm.state (
  one bool PRIMARY KEY DEFAULT true CHECK (one),
  me int, name text,
  journal bigint NOT NULL DEFAULT 0, number bigint NOT NULL DEFAULT 0, nonce bigint NOT NULL DEFAULT 0,
  known int NOT NULL DEFAULT 0, fenced int NOT NULL DEFAULT 0, heard bigint NOT NULL DEFAULT 0);
INSERT INTO sm.state DEFAULT VALUES ON CONFLICT DO NOTHING;

-- How many replicas have each write that is acknowledged, this one among them; and the last reopening at which the server was settled.
ALTER TABLE sm.state ADD COLUMN IF NOT EXISTS copies int NOT NULL DEFAULT 1, ADD COLUMN IF NOT EXISTS settled bigint NOT NULL DEFAULT 0;
UPDATE sm.state SET settled = heard WHERE fenced = 0;

-- All servers, and how others reach their databases. A number belongs to one name for ever.
CREATE TABLE IF NOT EXISTS sm.servers (number int PRIMARY KEY, name text NOT NULL UNIQUE, url text NOT NULL, reach text);

-- The slots, and beside them: whom the shard is followed from; whether the copy here is whole; and for those who will follow this server the place in
-- its log behind which all writes are its own, with the view and the position at which its copy was then.
CREATE TABLE IF NOT EXISTS sm.slots (
  shard text PRIMARY KEY,
  cell int NOT NULL, party int NOT NULL, handover bigint NOT NULL, last bigint NOT NULL, at_work bigint NOT NULL, load bigint NOT NULL,
  cut bigint NOT NULL, has_cut int NOT NULL,
  source int, is_whole bool NOT NULL DEFAULT false, sealed pg_lsn, sealed_view bigint, sealed_position bigint);

-- The reopening since which a controller knows of the shard's copies, if this server has told it since it began to lead.
ALTER TABLE sm.slots ADD COLUMN IF NOT EXISTS told bigint;

-- The connections on which followers have said that their copies are whole: the last reopening at which each was settled by then.
CREATE TABLE IF NOT EXISTS sm.connections (shard text, server int, settled bigint NOT NULL, PRIMARY KEY (shard, server));

-- Functions read these with the rights of the client that calls them, who may use the schema.
GRANT SELECT ON sm.state, sm.slots, sm.connections TO PUBLIC;
GRANT SELECT (number, name) ON sm.servers TO PUBLIC;

-- The copies that this server makes: what they have left behind is its own to delete. An old copy stands beside, under the name `kept`, until the new
-- one is whole.
CREATE TABLE IF NOT EXISTS sm.copying (shard text PRIMARY KEY, source int NOT NULL, since timestamptz NOT NULL DEFAULT now(), kept text);

-- Streams that the copying of tables may have left at a source, by the beginning of their names.
CREATE TABLE IF NOT EXISTS sm.left_behind (source int, streams text, PRIMARY KEY (source, streams));

-- The copies that others make from here; they tell every second that they go on.
CREATE TABLE IF NOT EXISTS sm.copied (shard text, server int, since timestamptz NOT NULL DEFAULT now(), seen timestamptz NOT NULL DEFAULT now(), PRIMARY KEY (shard, server));

-- Data that was set aside, and not deleted: `smplan-pg drop --aside` deletes it.
CREATE TABLE IF NOT EXISTS sm.asides (schema text PRIMARY KEY, shard text NOT NULL, since timestamptz NOT NULL DEFAULT now(), why text NOT NULL);

-- The changes of shards' schemas that were made here by `smplan-pg ddl`.
CREATE TABLE IF NOT EXISTS sm.changes (shard text, name text, at timestamptz NOT NULL DEFAULT now(), PRIMARY KEY (shard, name));

-- The shards that this server wants to drop: the number of its question for leave, which is open until the drop is committed or given up.
CREATE TABLE IF NOT EXISTS sm.leaving (shard text PRIMARY KEY, question bigint NOT NULL);

-- The name of a shard's publication, and with a server's number that of the stream by which the server follows it.
CREATE OR REPLACE FUNCTION sm.stream(in_shard text, server int DEFAULT NULL) RETURNS text LANGUAGE sql IMMUTABLE PARALLEL SAFE AS $$
  SELECT 'sm_' || left(regexp_replace(lower(in_shard), '[^a-z0-9]', '_', 'g'), 34) || '_' || left(md5(in_shard), 8) || coalesce('_' || server, '')
$$;

-- The lock of a shard: each request shares it until its transaction ends, and an order that must find none running takes it whole. (Row locks would
-- starve: sharers of rows pass whoever waits.)
CREATE OR REPLACE FUNCTION sm.share(in_shard text) RETURNS void LANGUAGE sql AS $$ SELECT pg_advisory_xact_lock_shared(1936531056, hashtext(in_shard)) $$;
CREATE OR REPLACE FUNCTION sm.hold(in_shard text) RETURNS void LANGUAGE sql AS $$ SELECT pg_advisory_xact_lock(1936531056, hashtext(in_shard)) $$;

-- The lock of leave: one question or answer about a shard after the other. Who takes both takes that of the shard first.
CREATE OR REPLACE FUNCTION sm.lock_leave(in_shard text) RETURNS void LANGUAGE sql AS $$ SELECT pg_advisory_xact_lock(1936531059, hashtext(in_shard)) $$;

-- The lock of a follower's part: one that joins holds it from before its question is sent until the answer is committed, and what ends its part waits. So no old
-- question has an effect late, as one would whose process stood still. It is taken before that of the shard.
CREATE OR REPLACE FUNCTION sm.lock_part(in_shard text, follower int) RETURNS void LANGUAGE sql AS $$
  SELECT pg_advisory_xact_lock(1936531060, hashtext(follower || ' ' || in_shard))
$$;

-- ---- a shard's own tables

CREATE OR REPLACE FUNCTION sm.is_adopted(in_shard text) RETURNS bool LANGUAGE sql STABLE AS $$
  SELECT to_regclass(format('%I.sm_counters', in_shard)) IS NOT NULL
$$;

CREATE OR REPLACE FUNCTION sm.adopt(in_shard text) RETURNS void LANGUAGE plpgsql AS $$
BEGIN
  EXECUTE format('
    CREATE TABLE %1$I.sm_requests (id text PRIMARY KEY, reply text, at timestamptz NOT NULL DEFAULT now());
    CREATE INDEX ON %1$I.sm_requests (at);
    CREATE TABLE %1$I.sm_counters (n int PRIMARY KEY, writes bigint NOT NULL) WITH (fillfactor = 10);
    INSERT INTO %1$I.sm_counters SELECT it, 0 FROM generate_series(1, 16) it;
    CREATE TABLE %1$I.sm_cut (handover bigint PRIMARY KEY, position bigint NOT NULL, party int NOT NULL, sequences jsonb NOT NULL);
    CREATE TABLE %1$I.sm_views (view bigint PRIMARY KEY, position bigint NOT NULL);
    CREATE TABLE %1$I.sm_begun (one bool PRIMARY KEY DEFAULT true CHECK (one), view bigint NOT NULL, position bigint NOT NULL);
    CREATE TABLE %1$I.sm_members (server int PRIMARY KEY, was_owner bool NOT NULL DEFAULT false);
    CREATE TRIGGER sm_cut AFTER INSERT ON %1$I.sm_cut FOR EACH ROW EXECUTE FUNCTION sm.tell_cut();
    ALTER TABLE %1$I.sm_cut ENABLE ALWAYS TRIGGER sm_cut;
    CREATE TRIGGER sm_begun BEFORE INSERT ON %1$I.sm_begun FOR EACH ROW EXECUTE FUNCTION sm.check_begun();
    ALTER TABLE %1$I.sm_begun ENABLE REPLICA TRIGGER sm_begun;
    CREATE PUBLICATION %2$I FOR TABLES IN SCHEMA %1$I WITH (publish = '''')', in_shard, sm.stream(in_shard));
  PERFORM sm.guard_tables(in_shard);
END $$;

-- Guards the tables of a shard that have no guard yet.
CREATE OR REPLACE FUNCTION sm.guard_tables(in_shard text) RETURNS void LANGUAGE plpgsql AS $$
DECLARE it regclass;
BEGIN
  FOR it IN SELECT c.oid FROM pg_class c WHERE relnamespace = quote_ident(in_shard)::regnamespace AND relkind IN ('r', 'p') AND relname NOT LIKE 'sm\_%'
      AND NOT EXISTS (SELECT FROM pg_trigger WHERE tgrelid = c.oid AND tgname = 'sm_guard') LOOP
    EXECUTE format('CREATE TRIGGER sm_guard BEFORE INSERT OR UPDATE OR DELETE OR TRUNCATE ON %s EXECUTE FUNCTION sm.guard()', it);
  END LOOP;
END $$;

-- Undoes what sm.adopt did.
CREATE OR REPLACE FUNCTION sm.release(in_shard text) RETURNS void LANGUAGE plpgsql AS $$
DECLARE it record;
BEGIN
  FOR it IN SELECT tgrelid::regclass AS tab FROM pg_trigger JOIN pg_class c ON c.oid = tgrelid
      WHERE relnamespace = quote_ident(in_shard)::regnamespace AND tgname = 'sm_guard' AND NOT tgisinternal AND tgparentid = 0 LOOP
    EXECUTE format('DROP TRIGGER sm_guard ON %s', it.tab);
  END LOOP;
  EXECUTE format('DROP PUBLICATION IF EXISTS %2$I; DROP TABLE IF EXISTS %1$I.sm_requests, %1$I.sm_counters, %1$I.sm_cut, %1$I.sm_views, %1$I.sm_begun, %1$I.sm_members',
    in_shard, sm.stream(in_shard));
END $$;

CREATE OR REPLACE FUNCTION sm.tell_cut() RETURNS trigger LANGUAGE plpgsql AS $$ BEGIN PERFORM pg_notify('sm_cut', TG_TABLE_SCHEMA); RETURN NULL; END $$;

-- The position of a copy: how many transactions it has that wrote into the schema, be it into the shard's own tables alone. So two copies of one view
-- and position are the same. Of counters each transaction takes a free one, so that writers do not queue.
CREATE OR REPLACE FUNCTION sm.position(in_shard text) RETURNS bigint LANGUAGE plpgsql AS $$
DECLARE total bigint;
BEGIN
  IF NOT sm.is_adopted(in_shard) THEN RETURN 0; END IF;
  EXECUTE format('SELECT sum(writes) FROM %I.sm_counters', in_shard) INTO total;
  RETURN coalesce(total, 0);
END $$;

-- The view of a copy: the number of what made the last primary of its list.
CREATE OR REPLACE FUNCTION sm.view(in_shard text) RETURNS bigint LANGUAGE plpgsql AS $$
DECLARE last bigint;
BEGIN
  IF NOT sm.is_adopted(in_shard) THEN RETURN 0; END IF;
  EXECUTE format('SELECT max(view) FROM %I.sm_views', in_shard) INTO last;
  RETURN coalesce(last, 0);
END $$;

-- A server that begins to write stores what its copy had by then, as the first thing that its stream tells. A follower whose copy is another one takes nothing
-- of it: a subscription that was on while its stream was dropped and made again, or while its source was none, would go on behind a gap. (Tables that are copied
-- still have nothing to be compared: who copies has made the stream himself.)
CREATE OR REPLACE FUNCTION sm.check_begun() RETURNS trigger LANGUAGE plpgsql AS $$
DECLARE view bigint := sm.view(TG_TABLE_SCHEMA); "position" bigint := sm.position(TG_TABLE_SCHEMA);
BEGIN
  IF (view, "position") <> (NEW.view, NEW.position) AND (SELECT count(*) FROM pg_subscription_rel WHERE srsubstate = 'r' AND srrelid IN
      (TG_RELID, format('%I.sm_counters', TG_TABLE_SCHEMA)::regclass, format('%I.sm_views', TG_TABLE_SCHEMA)::regclass)) = 3 THEN
    RAISE 'a list of % that begins behind %/% can''t be followed by a copy that has %/%', TG_TABLE_SCHEMA, NEW.view, NEW.position, view, "position";
  END IF;
  RETURN NEW;
END $$;

-- Counts a write. What a transaction has counted has to be durable when others see it.
CREATE OR REPLACE FUNCTION sm.count(in_shard text) RETURNS void LANGUAGE plpgsql AS $$
DECLARE n int;
BEGIN
  IF current_setting('synchronous_commit') = 'off' THEN PERFORM set_config('synchronous_commit', 'local', true); END IF;
  EXECUTE format('UPDATE %1$I.sm_counters SET writes = writes + 1 WHERE n = (SELECT n FROM %1$I.sm_counters LIMIT 1 FOR UPDATE SKIP LOCKED)', in_shard);
  GET DIAGNOSTICS n = ROW_COUNT;
  IF n = 0 THEN
    EXECUTE format('INSERT INTO %I.sm_counters AS it VALUES (pg_backend_pid() + 16, 1) ON CONFLICT (n) DO UPDATE SET writes = it.writes + 1', in_shard);
  END IF;
END $$;

-- ---- requests

-- Where a request is executed: `sm_route` of include/sm_agent.h, by its numbers (12 execute, 13 pass on, 14 not here, 15 not yet). The proved function decides
-- if extension smplan_agent is there.
CREATE OR REPLACE FUNCTION sm.route(known int, base_fenced int, s sm.slots, applied bigint, is_passed bool, passed_handover bigint, passed_cut bigint, passed_by int)
RETURNS int LANGUAGE plpgsql STABLE AS $$
BEGIN
  IF s.cell IS NOT NULL AND to_regprocedure('sm.agent(text, bigint[])') IS NOT NULL THEN
    RETURN (sm.agent('route', ARRAY[0, 0, 0, known, base_fenced, s.cell, s.party, s.handover, s.last, s.at_work, s.load, s.cut, s.has_cut, applied,
      passed_handover, passed_cut, coalesce(passed_by, 0), is_passed::int]))[1];
  END IF;
  RETURN CASE
    WHEN known = 0 OR s.cell IS NULL OR s.cell IN (0, 1, 3) THEN 14
    WHEN s.cell = 4 THEN CASE WHEN s.at_work <> 0 THEN 15 ELSE 12 END
    WHEN s.cell = 5 THEN CASE WHEN base_fenced = 1 OR s.has_cut = 0 THEN 15 ELSE 13 END
    WHEN NOT is_passed OR passed_by <> s.party OR passed_handover <> s.handover THEN 14
    WHEN base_fenced = 1 OR applied < passed_cut THEN 15
    ELSE 12 END;
END $$;

-- The first statement of a request. Answers 12: the statements that follow are the request, and sm.reply stores its reply; 11: it was executed before,
-- with this reply; 13: send it to server `party`, with `handover`, `cut` and the number of this server; 14: look at the map again; 15: wait a moment.
-- A request that only reads has no identity, NULL.
CREATE OR REPLACE FUNCTION sm.enter(in_shard text, request text, passed_handover bigint DEFAULT 0, passed_cut bigint DEFAULT 0, passed_by int DEFAULT NULL,
  OUT answer int, OUT reply text, OUT party int, OUT handover bigint, OUT cut bigint, OUT me int) LANGUAGE plpgsql AS $$
DECLARE b sm.state; s sm.slots; n int;
BEGIN
  IF current_setting('transaction_isolation') <> 'read committed' THEN
    RAISE 'sm.enter needs read committed: an older snapshot has an older slot' USING ERRCODE = '25001';
  END IF;
  PERFORM sm.share(in_shard);
  SELECT * INTO b FROM sm.state;
  SELECT * INTO s FROM sm.slots WHERE shard = in_shard;
  me := b.me;
  answer := sm.route(b.known, b.fenced, s, CASE s.cell WHEN 2 THEN sm.position(in_shard) ELSE 0 END, passed_by IS NOT NULL, passed_handover, passed_cut, passed_by);
  IF answer = 12 AND s.cell = 2 AND s.has_cut = 0 THEN answer := 15; END IF;  -- (it still follows the old owner)
  IF answer = 13 THEN
    party := s.party; handover := s.handover; cut := s.cut;
  ELSIF answer = 12 THEN
    PERFORM set_config('search_path', quote_ident(in_shard), true);
    IF request IS NULL THEN RETURN; END IF;
    PERFORM set_config('sm.entered', in_shard, true);
    EXECUTE format('INSERT INTO %I.sm_requests (id) VALUES ($1) ON CONFLICT DO NOTHING', in_shard) USING request;
    GET DIAGNOSTICS n = ROW_COUNT;
    IF n = 0 THEN
      answer := 11;
      EXECUTE format('SELECT reply FROM %I.sm_requests WHERE id = $1', in_shard) INTO reply USING request;
    ELSE
      PERFORM sm.count(in_shard);
    END IF;
  END IF;
END $$;

-- Stores the reply of a request, in its transaction.
CREATE OR REPLACE FUNCTION sm.reply(in_shard text, request text, told text) RETURNS void LANGUAGE plpgsql AS $$
BEGIN EXECUTE format('UPDATE %I.sm_requests SET reply = $2 WHERE id = $1', in_shard) USING request, told; END $$;

-- Whether as many replicas as each write has to be at have what this server's log has up to a place, itself among them. A follower counts by its present
-- connection, if it was settled at this server's last reopening or later when it began that.
CREATE OR REPLACE FUNCTION sm.has_copies(in_shard text, until pg_lsn) RETURNS bool LANGUAGE plpgsql AS $$
DECLARE b sm.state; others int;
BEGIN
  SELECT * INTO b FROM sm.state;
  IF b.copies < 2 THEN RETURN true; END IF;
  EXECUTE format('SELECT count(*) FROM %I.sm_members m JOIN sm.connections c ON c.shard = $1 AND c.server = m.server
    JOIN pg_replication_slots r ON r.slot_name = sm.stream($1, m.server) AND r.database = current_database()
    WHERE c.settled >= $2 AND r.confirmed_flush_lsn >= $3', in_shard) INTO others USING in_shard, b.settled, until;
  RETURN others + 1 >= b.copies;
END $$;

-- Called behind the commit of a request, or of a read: true once all members have what it saw, and enough have. False: send the request again, under its
-- identity.
-- (Members and slot are read together: one transaction changes both. Streams are read before: who copies anew by then
-- counts no more, and its new stream, which has all, is not looked at. synchronous_standby_names would make all shards of
-- a server wait for the slowest follower of any. Meanwhile only those are looked at that lacked it, by a plan that is
-- kept; and members again soon: an old owner that leaves confirms nothing more.)
CREATE OR REPLACE FUNCTION sm.acknowledged(in_shard text, patience interval DEFAULT '10 s') RETURNS bool LANGUAGE plpgsql AS $$
DECLARE
  until pg_lsn := pg_current_wal_flush_lsn(); ends timestamptz := clock_timestamp() + patience; steps int := 0;
  have text[]; members int[]; served bool; lacking text[];
BEGIN
  LOOP
    IF NOT sm.is_adopted(in_shard) THEN RETURN false; END IF;
    have := ARRAY(SELECT slot_name FROM pg_get_replication_slots()
      WHERE confirmed_flush_lsn >= until AND datoid = (SELECT oid FROM pg_database WHERE datname = current_database()));
    EXECUTE format('SELECT EXISTS (SELECT FROM sm.slots WHERE shard = $1 AND (cell = 4 OR (cell = 2 AND has_cut = 1))),
      ARRAY(SELECT server FROM %I.sm_members)', in_shard) INTO served, members USING in_shard;
    lacking := ARRAY(SELECT stream FROM (SELECT sm.stream(in_shard, server) AS stream FROM unnest(members) server OFFSET 0) m
      WHERE stream <> ALL (have));
    IF NOT served OR (lacking = '{}' AND sm.has_copies(in_shard, until)) THEN RETURN served; END IF;
    LOOP
      IF clock_timestamp() > ends THEN RETURN false; END IF;
      steps := steps + 1;
      PERFORM pg_sleep(CASE WHEN steps < 40 THEN 0.001 ELSE 0.01 END);
      EXIT WHEN steps % 10 = 0 OR steps > 40 OR lacking <> '{}' AND NOT EXISTS (
        SELECT FROM sm.slots, pg_get_replication_slots()
        WHERE shard = in_shard AND cell IN (2, 4) AND slot_name = ANY (lacking) AND confirmed_flush_lsn < until);
    END LOOP;
  END LOOP;
END $$;

-- Whether all members have what this server's log has up to a place.
CREATE OR REPLACE FUNCTION sm.has_all(in_shard text, until pg_lsn) RETURNS bool LANGUAGE plpgsql AS $$
DECLARE lacking bool;
BEGIN
  EXECUTE format('SELECT EXISTS (SELECT FROM %I.sm_members m LEFT JOIN pg_replication_slots r ON r.slot_name = sm.stream($1, m.server) AND r.database = current_database()
    WHERE r.confirmed_flush_lsn IS NULL OR r.confirmed_flush_lsn < $2)', in_shard) INTO lacking USING in_shard, until;
  RETURN NOT lacking;
END $$;

-- Deletes the identities of requests that are older than a time, some at once, as one more write. How many.
CREATE OR REPLACE FUNCTION sm.forget_requests(in_shard text, keeping interval, most int DEFAULT 1000) RETURNS int LANGUAGE plpgsql AS $$
DECLARE n int;
BEGIN
  PERFORM sm.share(in_shard);
  IF NOT EXISTS (SELECT FROM sm.slots WHERE shard = in_shard AND cell = 4 AND at_work = 0) THEN RETURN 0; END IF;
  EXECUTE format('WITH old AS (SELECT id FROM %1$I.sm_requests WHERE at < now() - $1 ORDER BY at LIMIT $2)
    DELETE FROM %1$I.sm_requests WHERE id IN (SELECT id FROM old)', in_shard) USING keeping, most;
  GET DIAGNOSTICS n = ROW_COUNT;
  IF n > 0 THEN PERFORM sm.count(in_shard); END IF;
  RETURN n;
END $$;

-- For clients that know nothing of this: each statement that writes is refused where the shard is not served. Their requests have no identities, and
-- wait for nobody. (Triggers like this one do not fire for what replication applies.)
CREATE OR REPLACE FUNCTION sm.guard() RETURNS trigger LANGUAGE plpgsql AS $$
DECLARE b sm.state; s sm.slots;
BEGIN
  IF current_setting('sm.entered', true) = TG_TABLE_SCHEMA OR current_setting('sm.own', true) = 'on' THEN RETURN NULL; END IF;
  PERFORM sm.share(TG_TABLE_SCHEMA);
  SELECT * INTO b FROM sm.state;
  SELECT * INTO s FROM sm.slots WHERE shard = TG_TABLE_SCHEMA;
  IF sm.route(b.known, b.fenced, s, 0, false, 0, 0, 0) <> 12 THEN
    RAISE 'shard % is not served here: look at the map again', TG_TABLE_SCHEMA USING ERRCODE = '57P04';
  END IF;
  PERFORM sm.count(TG_TABLE_SCHEMA);
  RETURN NULL;
END $$;

-- ---- for other servers

-- What a follower needs to know of its source; `connected` is the reopening at which it was settled, as it has said on its present connection. A stream that
-- is past the place where this server's own writes begin can't be joined any more.
DROP FUNCTION IF EXISTS sm.offers(text, int);
CREATE OR REPLACE FUNCTION sm.offers(in_shard text, follower int, OUT cell int, OUT has_cut int, OUT at_work bigint, OUT journal bigint, OUT number bigint, OUT known int,
  OUT fenced int, OUT place pg_lsn, OUT view bigint, OUT "position" bigint, OUT has_stream bool, OUT is_joinable bool, OUT is_member bool, OUT party int,
  OUT connected bigint) LANGUAGE plpgsql AS $$
DECLARE b sm.state; s sm.slots; r record;
BEGIN
  SELECT * INTO b FROM sm.state;
  SELECT * INTO s FROM sm.slots WHERE shard = in_shard;
  SELECT slot_name, confirmed_flush_lsn, wal_status INTO r FROM pg_replication_slots
    WHERE slot_name = sm.stream(in_shard, follower) AND database = current_database();
  cell := coalesce(s.cell, 1); party := coalesce(s.party, 0); has_cut := coalesce(s.has_cut, 0); at_work := coalesce(s.at_work, 0);
  journal := b.journal; number := b.number; known := b.known; fenced := b.fenced;
  place := s.sealed; view := s.sealed_view; "position" := s.sealed_position;
  has_stream := r.slot_name IS NOT NULL AND r.wal_status <> 'lost';
  is_joinable := has_stream AND r.confirmed_flush_lsn <= s.sealed;
  is_member := false;
  SELECT settled INTO connected FROM sm.connections WHERE shard = in_shard AND server = follower;
  IF sm.is_adopted(in_shard) THEN
    EXECUTE format('SELECT EXISTS (SELECT FROM %I.sm_members WHERE server = $1)', in_shard) INTO is_member USING follower;
  END IF;
END $$;

-- A follower counts from now on, which has taken the lock of its part before. False if this server does not serve the shard. (A new owner that is fenced will
-- begin anew, with what it has by then.) It begins a connection, and ends the one before: on that it counts for the number of copies, too, if it says at which
-- reopening of the journal it was settled.
DROP FUNCTION IF EXISTS sm.join(text, int);
CREATE OR REPLACE FUNCTION sm.join(in_shard text, follower int, in_journal bigint DEFAULT NULL, in_settled bigint DEFAULT NULL) RETURNS bool LANGUAGE plpgsql AS $$
DECLARE n int;
BEGIN
  PERFORM sm.share(in_shard);
  IF NOT EXISTS (SELECT FROM sm.state, sm.slots WHERE known = 1 AND shard = in_shard AND (cell = 4 OR (cell = 2 AND has_cut = 1 AND fenced = 0))) THEN
    RETURN false;
  END IF;
  EXECUTE format('INSERT INTO %1$I.sm_members (server) SELECT $1 WHERE NOT EXISTS (SELECT FROM %1$I.sm_members WHERE server = $1) ON CONFLICT DO NOTHING', in_shard)
    USING follower;
  GET DIAGNOSTICS n = ROW_COUNT;
  IF n > 0 THEN PERFORM sm.count(in_shard); END IF;
  DELETE FROM sm.connections WHERE shard = in_shard AND server = follower;
  INSERT INTO sm.connections SELECT in_shard, follower, in_settled FROM sm.state WHERE journal = in_journal AND in_settled IS NOT NULL;
  RETURN true;
END $$;

-- A follower that copies the shard anew counts no more until that copy is whole: what it says of its stream meanwhile is not what it would have after a loss.
-- False if this server knows of no copy.
CREATE OR REPLACE FUNCTION sm.part(in_shard text, follower int) RETURNS bool LANGUAGE plpgsql AS $$
DECLARE n int;
BEGIN
  PERFORM sm.lock_part(in_shard, follower);
  PERFORM sm.share(in_shard);
  IF NOT EXISTS (SELECT FROM sm.copied WHERE shard = in_shard AND server = follower) THEN RETURN false; END IF;
  DELETE FROM sm.connections WHERE shard = in_shard AND server = follower;
  IF NOT sm.is_adopted(in_shard) THEN RETURN true; END IF;
  EXECUTE format('DELETE FROM %I.sm_members WHERE NOT was_owner AND server = $1', in_shard) USING follower;
  GET DIAGNOSTICS n = ROW_COUNT;
  IF n > 0 THEN PERFORM sm.count(in_shard); END IF;
  RETURN true;
END $$;

-- This server asks for leave to drop a shard, under a number that no question had before.
CREATE OR REPLACE FUNCTION sm.begin_leaving(in_shard text, in_question bigint) RETURNS void LANGUAGE plpgsql AS $$
BEGIN
  PERFORM sm.lock_leave(in_shard);
  INSERT INTO sm.leaving VALUES (in_shard, in_question) ON CONFLICT (shard) DO UPDATE SET question = excluded.question;
END $$;

-- The question is answered, and the drop is committed in this transaction. False if this server has given it up, since it gave leave itself.
CREATE OR REPLACE FUNCTION sm.end_leaving(in_shard text, in_question bigint) RETURNS bool LANGUAGE plpgsql AS $$
BEGIN
  PERFORM sm.lock_leave(in_shard);
  DELETE FROM sm.leaving WHERE shard = in_shard AND question = in_question;
  RETURN FOUND;
END $$;

-- Another server asks for leave to drop a shard: 'leave', or why not. A primary gives it, and counts the other no more (but an old owner until it has dropped
-- its copy, which a reopening takes for whole until then), if enough others have all that is acknowledged. (Who counts among these counts no more first, in a
-- transaction of its own: what it was counted for is in the log by then.) Where there is none (`beside`), a secondary gives it whose whole copy has what the
-- other has. Who has a question open gives none; of two that ask each other the one with the higher number gives its own up, and asks anew.
DROP FUNCTION IF EXISTS sm.leave(text, int);
CREATE OR REPLACE FUNCTION sm.leave(in_shard text, asker int, in_journal bigint, in_heard bigint, beside bool, in_view bigint, in_position bigint) RETURNS text
LANGUAGE plpgsql AS $$
DECLARE b sm.state; s sm.slots; n int; place pg_lsn; ends timestamptz;
BEGIN
  PERFORM sm.lock_part(in_shard, asker);
  PERFORM sm.share(in_shard);
  PERFORM sm.lock_leave(in_shard);
  SELECT * INTO b FROM sm.state;
  SELECT * INTO s FROM sm.slots WHERE shard = in_shard;
  IF b.known = 0 OR b.fenced = 1 OR (b.journal, b.heard) <> (in_journal, in_heard) THEN RETURN 'it knows of another reopening'; END IF;
  IF s.cell IS DISTINCT FROM (CASE WHEN beside THEN 3 ELSE 4 END) THEN RETURN 'it does not serve the shard'; END IF;
  IF beside AND NOT s.is_whole THEN RETURN 'its copy is not whole'; END IF;
  IF beside AND (sm.view(in_shard), sm.position(in_shard)) < (in_view, in_position) THEN RETURN 'it lacks writes'; END IF;
  DELETE FROM sm.leaving WHERE shard = in_shard AND b.me > asker;
  IF EXISTS (SELECT FROM sm.leaving WHERE shard = in_shard) THEN RETURN 'it leaves, too'; END IF;
  IF beside THEN RETURN 'leave'; END IF;
  EXECUTE format('DELETE FROM %I.sm_members WHERE server = $1 AND NOT was_owner', in_shard) USING asker;
  GET DIAGNOSTICS n = ROW_COUNT;
  IF n > 0 THEN PERFORM sm.count(in_shard); END IF;
  DELETE FROM sm.connections WHERE shard = in_shard AND server = asker;
  IF FOUND THEN RETURN 'it has to ask again: it counted until now'; END IF;
  place := pg_current_wal_flush_lsn();
  ends := clock_timestamp() + interval '0.1 s';
  WHILE NOT sm.has_copies(in_shard, place) LOOP
    IF clock_timestamp() > ends THEN RETURN format('fewer than %s others have all', b.copies); END IF;
    PERFORM pg_sleep(0.002);
  END LOOP;
  RETURN 'leave';
END $$;

-- An old owner has dropped its copy: it counts no more at the primary.
CREATE OR REPLACE FUNCTION sm.left(in_shard text, asker int) RETURNS void LANGUAGE plpgsql AS $$
DECLARE n int;
BEGIN
  PERFORM sm.share(in_shard);
  IF NOT EXISTS (SELECT FROM sm.slots WHERE shard = in_shard AND cell = 4) THEN RETURN; END IF;
  EXECUTE format('DELETE FROM %I.sm_members WHERE server = $1 AND was_owner', in_shard) USING asker;
  GET DIAGNOSTICS n = ROW_COUNT;
  IF n > 0 THEN PERFORM sm.count(in_shard); END IF;
END $$;

-- A copy begins, or goes on. False if so many are made from here already.
CREATE OR REPLACE FUNCTION sm.copy(in_shard text, follower int, most int) RETURNS bool LANGUAGE plpgsql AS $$
BEGIN
  PERFORM pg_advisory_xact_lock(1936531057, 0);
  UPDATE sm.copied SET seen = clock_timestamp() WHERE shard = in_shard AND server = follower;
  IF FOUND THEN RETURN true; END IF;
  DELETE FROM sm.copied WHERE seen < clock_timestamp() - interval '10 s';
  IF (SELECT count(*) FROM sm.copied) >= most THEN RETURN false; END IF;
  INSERT INTO sm.copied VALUES (in_shard, follower);
  RETURN true;
END $$;

-- ---- sequences, which logical replication leaves out

-- Their values, which travel in the cut.
CREATE OR REPLACE FUNCTION sm.sequences(in_shard text) RETURNS jsonb LANGUAGE sql AS $$
  SELECT coalesce(jsonb_object_agg(sequencename, last_value) FILTER (WHERE last_value IS NOT NULL), '{}') FROM pg_sequences WHERE schemaname = in_shard
$$;

CREATE OR REPLACE FUNCTION sm.set_sequences(in_shard text, told jsonb) RETURNS void LANGUAGE sql AS $$
  SELECT setval(format('%I.%I', in_shard, key)::regclass, value::bigint) FROM jsonb_each_text(told)
$$;

-- Each that a column owns goes behind the greatest value there, as no cut tells of writes behind it.
CREATE OR REPLACE FUNCTION sm.advance_sequences(in_shard text) RETURNS void LANGUAGE plpgsql AS $$
DECLARE it record; last bigint; told bigint;
BEGIN
  FOR it IN SELECT s.oid::regclass AS sequence, t.oid::regclass AS tab, a.attname FROM pg_class s JOIN pg_depend d ON d.objid = s.oid AND d.deptype IN ('a', 'i')
      JOIN pg_class t ON t.oid = d.refobjid JOIN pg_attribute a ON a.attrelid = t.oid AND a.attnum = d.refobjsubid
      WHERE s.relkind = 'S' AND s.relnamespace = quote_ident(in_shard)::regnamespace LOOP
    EXECUTE format('SELECT max(%I) FROM %s', it.attname, it.tab) INTO last;
    SELECT last_value INTO told FROM pg_sequences WHERE format('%I.%I', schemaname, sequencename)::regclass = it.sequence;
    IF last > coalesce(told, 0) THEN PERFORM setval(it.sequence, last); END IF;
  END LOOP;
END $$;

-- ---- no change of a schema that moves, or has followers, which would not get it

CREATE OR REPLACE FUNCTION sm.refuse_ddl(in_schema text) RETURNS void LANGUAGE plpgsql AS $$
DECLARE begun timestamptz; moves bool; followed bool := false;
BEGIN
  IF current_setting('sm.own', true) = 'on' OR in_schema IS NULL THEN RETURN; END IF;
  moves := EXISTS (SELECT FROM sm.slots WHERE shard = in_schema AND (cell IN (2, 5) OR at_work <> 0));
  SELECT min(since) INTO begun FROM (SELECT since FROM sm.copied WHERE shard = in_schema AND seen > clock_timestamp() - interval '10 s'
    UNION ALL SELECT since FROM sm.copying WHERE shard = in_schema) it;
  IF moves OR begun IS NOT NULL THEN
    RAISE 'shard % moves%: its schema can''t be changed now', in_schema, coalesce(format(', for %s s so far', round(extract(epoch FROM clock_timestamp() - begun))), '')
      USING ERRCODE = '55006', HINT = 'Try again once it has moved: a copy takes about as long as pg_dump and restore of the schema.';
  END IF;
  IF NOT sm.is_adopted(in_schema) THEN RETURN; END IF;
  EXECUTE format('SELECT EXISTS (SELECT FROM %I.sm_members)', in_schema) INTO followed;
  IF followed OR EXISTS (SELECT FROM sm.slots WHERE shard = in_schema AND cell = 3) THEN
    RAISE 'shard % has replicas at several servers: its schema is changed at all of them', in_schema USING ERRCODE = '55006', HINT = 'Use smplan-pg ddl.';
  END IF;
END $$;

CREATE OR REPLACE FUNCTION sm.on_ddl() RETURNS event_trigger LANGUAGE plpgsql AS $$
DECLARE it record;
BEGIN
  FOR it IN SELECT DISTINCT schema_name FROM pg_event_trigger_ddl_commands() WHERE NOT in_extension LOOP PERFORM sm.refuse_ddl(it.schema_name); END LOOP;
END $$;

CREATE OR REPLACE FUNCTION sm.on_drop() RETURNS event_trigger LANGUAGE plpgsql AS $$
DECLARE it record;
BEGIN
  FOR it IN SELECT DISTINCT coalesce(schema_name, CASE object_type WHEN 'schema' THEN object_name END) AS name FROM pg_event_trigger_dropped_objects() WHERE NOT is_temporary LOOP
    PERFORM sm.refuse_ddl(it.name);
  END LOOP;
END $$;

DROP EVENT TRIGGER IF EXISTS sm_ddl;
DROP EVENT TRIGGER IF EXISTS sm_drop;
CREATE EVENT TRIGGER sm_ddl ON ddl_command_end EXECUTE FUNCTION sm.on_ddl();
CREATE EVENT TRIGGER sm_drop ON sql_drop EXECUTE FUNCTION sm.on_drop();
