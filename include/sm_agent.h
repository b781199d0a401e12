/* sm_agent.h: a server's side of moving shards.
 *
 * A service's server keeps a base, and for each shard a slot. These functions say what it makes of orders, requests, fences, settles and
 * restores. They take no memory, keep nothing, and read and write only the structs that they are given. They are proved to do what the
 * definitions of crates/sm_agent and crates/sm_agent_c say. docs/YOUR-SERVERS.md tells what a server has to do with the answers.
 *
 * Each pointer points to one whole struct of its type (an array to `n` of them, and never to NULL), aligned for it, and no two pointers of
 * one call to the same struct. Any values may stand there: if a kind or a flag is out of range, the answer is SM_BAD, and nothing is changed. All functions may be called by
 * any thread; a struct is given to one call at a time. `reserved` members are written as 0 and not read.
 */
#ifndef SM_AGENT_H
#define SM_AGENT_H

#include <stddef.h>
#include <stdint.h>

#ifdef __cplusplus
extern "C" {
#endif

/* The answers of the functions. */
enum sm_answer {
  SM_BAD = 0,           /* a kind or a flag is out of range */
  SM_BEGIN = 1,         /* order: begin its work; publication: show its entry from now on */
  SM_WORKING = 2,       /* order: its work has begun, and is not committed yet */
  SM_AGAIN = 3,         /* it had its effect before, or a later publication had: answer it again */
  SM_OLD = 4,           /* order: it has no effect any more; do not answer it */
  SM_FOREIGN = 5,       /* order: it is of another journal */
  SM_NOT_READY = 6,     /* the server is Unknown or fenced */
  SM_DOWN = 7,          /* order: refused; no function here answers it */
  SM_ALREADY_HELD = 8,  /* order: refused, the server has the shard already */
  SM_NOT_HELD = 9,      /* order: refused, the server has nothing of the shard */
  SM_WRONG_ROLE = 10,   /* order: refused, the replica is not in the role that the call needs */
  SM_NO_ROOM = 11,      /* order: refused, the server has no room for the shard */
  SM_EXECUTE = 12,      /* request: execute it here, in one act with this answer */
  SM_PASS_ON = 13,      /* request: pass it on to the new owner */
  SM_NOT_HERE = 14,     /* request: its client is to look at the published map again */
  SM_NOT_YET = 15,      /* request: it waits here, and is routed again later */
  SM_TAKEN = 16,        /* message: it is taken, and the base is changed */
  SM_IGNORED = 17,      /* message: it changes nothing, and is not answered */
  SM_DONE = 18,         /* the slot is changed; or what was asked is so */
  SM_NOT_DONE = 19,     /* the slot is as it was; or what was asked is not so */
  SM_INCOMPLETE = 20,   /* message: the shards given are not those of all slots that it brings; nothing is changed */
  SM_LESS = 21,         /* copies: the first one is less, .. */
  SM_EQUAL = 22,        /* .. the same, .. */
  SM_GREATER = 23       /* .. or greater */
};

/* Kinds of cells: what a server has of a shard. */
enum sm_cell {
  SM_UNKNOWN = 0,       /* the slot of an Unknown server: zeros */
  SM_ABSENT = 1,
  SM_PREPARED = 2,      /* the new owner of a handover: `party` is the old one */
  SM_SECONDARY = 3,
  SM_PRIMARY = 4,
  SM_FORWARDING = 5     /* the old owner of a handover: `party` is the new one */
};

/* Kinds of calls. */
enum sm_call {
  SM_ADD = 1,           /* in `role` */
  SM_DROP = 2,
  SM_CHANGE = 3,        /* from `role` to `new_role` */
  SM_PREPARE_ADD = 4,   /* `party` is the owner */
  SM_PREPARE_DROP = 5   /* `party` is the new owner */
};

/* Kinds of roles. */
enum sm_role { SM_AS_PRIMARY = 1, SM_AS_SECONDARY = 2 };

/* A server's base. Zeros are that of an Unknown server, which has yet to make a nonce. */
typedef struct {
  uint64_t journal;     /* the journal whose orders the server takes */
  uint64_t number;      /* orders at or below this number are old */
  uint64_t nonce;       /* while Unknown: the nonce under which the server asks for its slots, not 0 */
  uint32_t known;       /* 1 if the server has its slots, 0 while it is Unknown */
  uint32_t fenced;      /* 1 from a fence until its settle, otherwise 0 */
} sm_base;

/* A shard's slot at a server. */
typedef struct {
  uint32_t cell;        /* enum sm_cell */
  uint32_t party;       /* of SM_PREPARED and SM_FORWARDING: the other server, by a number that the service gives it once and for all */
  uint64_t handover;    /* of these: the handover's number */
  uint64_t last;        /* the number of the last order that had its effect, 0 for none */
  uint64_t at_work;     /* the number of the order at work, 0 for none */
  uint64_t load;        /* the shard's load at this server, 0 if it has nothing of the shard */
  uint64_t cut;         /* if has_cut: the position of the shard's writes at which the old owner stopped executing */
  uint32_t has_cut;     /* 1 or 0 */
  uint32_t reserved;
} sm_slot;

/* An order to a server, for one shard. */
typedef struct {
  uint64_t journal;
  uint64_t fence;       /* the number of the journal's last reopening */
  uint64_t number;
  uint64_t load;        /* the shard's load */
  uint64_t room;        /* the server's room */
  uint64_t handover;    /* of SM_PREPARE_ADD and SM_PREPARE_DROP */
  uint32_t call;        /* enum sm_call */
  uint32_t role;        /* enum sm_role, of SM_ADD and SM_CHANGE */
  uint32_t new_role;    /* enum sm_role, of SM_CHANGE */
  uint32_t party;       /* of SM_PREPARE_ADD and SM_PREPARE_DROP: the handover's other server */
} sm_order;

/* An order to the owner of the published map, for one shard. */
typedef struct {
  uint64_t journal;
  uint64_t fence;
  uint64_t version;
} sm_publication;

/* The ways in which a client's request comes to a server. */
typedef struct {
  uint64_t handover;    /* if passed: the handover's number */
  uint64_t cut;         /* if passed: the old owner's cut */
  uint32_t party;       /* if passed: the other server of the handover */
  uint32_t is_passed;   /* 0 if it comes from the client, 1 if the old owner passes it on */
} sm_request;

/* A reopening: a fence names it, and so does each later message. */
typedef struct {
  uint64_t journal;
  uint64_t number;
} sm_reopening;

/* Kinds of messages that bring a server all its slots. */
enum sm_assignment_kind {
  SM_SETTLE = 1,        /* the end of a reopening at one server */
  SM_RESTORE = 2        /* the answer to a server that has lost its slots */
};

/* A settle or a restore, but for the slots that it brings. */
typedef struct {
  uint64_t journal;
  uint64_t fence;       /* of SM_RESTORE: the number of the journal's last reopening */
  uint64_t number;      /* of SM_SETTLE the reopening's; of SM_RESTORE it becomes the base's */
  uint64_t nonce;       /* of SM_SETTLE, if has_nonce, the one that the answer to the fence had; of SM_RESTORE the one under which the server asked */
  uint64_t slots;       /* how many slots it brings */
  uint32_t has_nonce;   /* of SM_SETTLE: 1, or 0 if the answer to the fence had slots */
  uint32_t kind;        /* enum sm_assignment_kind */
} sm_assignment;

/* A shard of a server that takes a settle or a restore. */
typedef struct {
  sm_slot slot;         /* the server's slot, or zeros if it has none; afterwards what it has become */
  sm_slot brought;      /* the slot that is brought: `cell`, `party`, `handover` and `load` are read; zeros if none is brought */
} sm_shard;

/* What is told of a whole copy, always of what is durable. */
typedef struct {
  uint64_t view;        /* the view of its list: the number of what made the list's primary */
  uint64_t position;    /* how many writes it has */
} sm_copy;

/* A view of a list of writes. */
typedef struct {
  uint64_t view;
  uint64_t position;    /* where it began in the list */
} sm_view;

/* ---- Orders ---- */

/* Decides what a server makes of an order. `used` is the sum of the loads of its slots that are not absent.
 * Answers SM_BEGIN, SM_WORKING, SM_AGAIN, SM_OLD, SM_FOREIGN, SM_NOT_READY or a refusal. Only SM_AGAIN, and a commit, are answered to the
 * controller as done. Zeros are SM_NOT_READY. */
uint32_t sm_judge(const sm_base *base, const sm_slot *slot, uint64_t used, const sm_order *order);

/* Notes that the work of an order begins, after SM_BEGIN: store the slot before the work begins.
 * Answers SM_DONE, or SM_NOT_READY at zeros. */
uint32_t sm_begin(sm_slot *slot, const sm_order *order);

/* Commits the work of an order, with the shard's writes applied up to `at`. Answers SM_DONE: store the slot in one act with the work,
 * and answer the order afterwards. Answers SM_NOT_DONE if another number is at work or the base has risen: throw the work away; or, at a new
 * owner, if sm_has_reached_cut is not so: go on. SM_NOT_READY at zeros.
 * Before it is called: for SM_PREPARE_DROP and SM_DROP of a primary no request of the shard runs; for SM_CHANGE to a secondary none runs and
 * each secondary has all writes; for SM_PREPARE_ADD the server can take over. */
uint32_t sm_commit(const sm_base *base, sm_slot *slot, const sm_order *order, uint64_t at);

/* Gives the work of an order up: for every slot at each start of the server and when a fence is taken, and whenever work is given up.
 * The order comes again. Answers SM_DONE, or SM_NOT_READY at zeros, which stay. */
uint32_t sm_abandon(sm_slot *slot);

/* Tells a new owner the old one's cut, by which the old one ends its stream of writes. Answers SM_DONE (in another handover too, in which
 * the slot stays), or SM_NOT_READY at zeros. */
uint32_t sm_seal(sm_slot *slot, uint64_t handover, uint64_t cut);

/* Tells whether a new owner has applied all writes up to the old one's cut, which it knows: SM_DONE or SM_NOT_DONE; SM_NOT_READY at zeros.
 * The answer to a fence has this of each slot. */
uint32_t sm_has_reached_cut(const sm_slot *slot, uint64_t applied);

/* Tells whether a slot may be deleted: SM_DONE or SM_NOT_DONE; SM_NOT_READY at zeros. Afterwards the shard's slot is that of sm_vacant. */
uint32_t sm_may_delete(const sm_base *base, const sm_slot *slot);

/* Makes the slot that of a shard of which a server that has its slots has never had anything. */
void sm_vacant(sm_slot *slot);

/* ---- Requests ---- */

/* Decides where a request is executed, at a server that has applied the shard's writes up to `applied`: SM_EXECUTE, SM_PASS_ON, SM_NOT_HERE
 * or SM_NOT_YET. The decision and the execution are one act. On SM_PASS_ON `onward` is what to pass on: its `party` is the new owner, and the
 * receiver puts the sender there. Otherwise `onward` stays. Zeros are SM_NOT_HERE. */
uint32_t sm_route(const sm_base *base, const sm_slot *slot, uint64_t applied, const sm_request *request, sm_request *onward);

/* ---- The server as a whole ---- */

/* Makes the base that of a server that has lost its slots, and asks for them under `nonce`: a fresh random number, not 0. Delete the slots, and
 * keep the data. Call it also at each start of a server that is Unknown. */
void sm_forget(sm_base *base, uint64_t nonce);

/* Decides what becomes of a fence: SM_TAKEN, SM_AGAIN (answer it again) or SM_IGNORED. Call it when no request of a slot in a handover runs. If it is
 * taken, call sm_abandon for every slot. A server that is Unknown asks under `nonce`, fresh and not 0, from then on. */
uint32_t sm_fence(sm_base *base, const sm_reopening *reopening, uint64_t nonce);

/* Takes a settle or a restore, or nothing of it: SM_TAKEN, SM_AGAIN (answer a settle again) or SM_IGNORED; or SM_INCOMPLETE, if another number of
 * the shards than `slots` says has a slot that is brought. `shards` are the `n` shards of which the server has a slot or is brought one. If it is
 * taken, each slot becomes what is brought of its shard; a slot of which nothing is brought becomes SM_ABSENT: set the shard's data aside. Store base
 * and slots in one act. The owner of the published map has no shards. */
uint32_t sm_take(sm_base *base, const sm_assignment *assignment, sm_shard *shards, size_t n);

/* Heeds the last reopening that a message names. Answers SM_TAKEN if the server was not settled at it: the server is Unknown from then on, and asks
 * under `nonce`, fresh and not 0; delete the slots, and keep the data. Otherwise SM_IGNORED. Call it before sm_judge with each order's journal and
 * fence. */
uint32_t sm_heed(sm_base *base, const sm_reopening *last, uint64_t nonce);

/* ---- Copies ---- */

/* Compares two copies: SM_LESS, SM_EQUAL or SM_GREATER. The one of the later view is greater, then the longer one. */
uint32_t sm_compare(const sm_copy *one, const sm_copy *other);

/* Tells whether a copy may go on behind a source, since it is a beginning of the source's list: SM_DONE or SM_NOT_DONE. The list has the `n` views, in
 * rising order, and ends at the position `end`. */
uint32_t sm_resumes(const sm_copy *copy, const sm_view *views, size_t n, uint64_t end);

/* Tells whether `copies` copies have the writes up to a position, a primary's own among them: SM_DONE or SM_NOT_DONE. `told` are the `n` copies that
 * other replicas have told it on their present connections, of whom none leaves. A replica gets leave to drop its copy if this is so of the others. */
uint32_t sm_copied(uint64_t copies, const sm_copy *own, const sm_copy *told, size_t n, uint64_t position);

/* Returns the position up to which a primary acknowledges: the greatest that `copies` copies have, its own among them; 0 if there is none. `told` are as
 * for sm_copied. */
uint64_t sm_acknowledged(uint64_t copies, const sm_copy *own, const sm_copy *told, size_t n);

/* ---- The owner of the published map ---- */

/* Decides what the map's owner makes of a publication, if it shows the version `shown` of the shard, 0 for none: SM_BEGIN (show the new
 * entry from now on, in one act with its version, then answer), SM_AGAIN (answer), or SM_OLD, SM_FOREIGN or SM_NOT_READY. Its base has
 * `known` 1, and is fenced and settled as a server's. */
uint32_t sm_publish(const sm_base *base, uint64_t shown, const sm_publication *publication);

#ifdef __cplusplus
}
#endif

#endif
