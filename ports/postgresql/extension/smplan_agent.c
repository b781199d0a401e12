/* smplan_agent: the proved functions of include/sm_agent.h inside PostgreSQL.
 *
 * sm.agent(name, numbers) is one call of the library. Numbers and answers are those of a line of tests/agent/README.md, in its order; each is the 64 bits
 * of a bigint. A name that is not known, or another count of numbers, is an error.
 */
#include "postgres.h"

#include "catalog/pg_type.h"
#include "fmgr.h"
#include "utils/array.h"
#include "utils/builtins.h"

#include "sm_agent.h"

PG_MODULE_MAGIC;
PG_FUNCTION_INFO_V1(smplan_agent);

/* The numbers of a call that are still to be read, and those of its answer. */
typedef struct
{
	const Datum *in;
	int			left;
	Datum	   *out;
	int			count;
} numbers;

static uint64_t
take(numbers *it)
{
	if (it->left == 0)
		ereport(ERROR, (errcode(ERRCODE_INVALID_PARAMETER_VALUE), errmsg("sm.agent: a number is missing")));
	it->left--;
	return (uint64_t) DatumGetInt64(*it->in++);
}

static void
give(numbers *it, uint64_t number)
{
	it->out[it->count++] = Int64GetDatum((int64) number);
}

static sm_base
take_base(numbers *it)
{
	sm_base		base = {0};

	base.journal = take(it);
	base.number = take(it);
	base.nonce = take(it);
	base.known = (uint32_t) take(it);
	base.fenced = (uint32_t) take(it);
	return base;
}

static void
give_base(numbers *it, const sm_base *base)
{
	give(it, base->journal);
	give(it, base->number);
	give(it, base->nonce);
	give(it, base->known);
	give(it, base->fenced);
}

static sm_slot
take_slot(numbers *it)
{
	sm_slot		slot = {0};

	slot.cell = (uint32_t) take(it);
	slot.party = (uint32_t) take(it);
	slot.handover = take(it);
	slot.last = take(it);
	slot.at_work = take(it);
	slot.load = take(it);
	slot.cut = take(it);
	slot.has_cut = (uint32_t) take(it);
	return slot;
}

static void
give_slot(numbers *it, const sm_slot *slot)
{
	give(it, slot->cell);
	give(it, slot->party);
	give(it, slot->handover);
	give(it, slot->last);
	give(it, slot->at_work);
	give(it, slot->load);
	give(it, slot->cut);
	give(it, slot->has_cut);
}

static sm_order
take_order(numbers *it)
{
	sm_order	order = {0};

	order.journal = take(it);
	order.fence = take(it);
	order.number = take(it);
	order.load = take(it);
	order.room = take(it);
	order.handover = take(it);
	order.call = (uint32_t) take(it);
	order.role = (uint32_t) take(it);
	order.new_role = (uint32_t) take(it);
	order.party = (uint32_t) take(it);
	return order;
}

static void
call_judge(numbers *it)
{
	sm_base		base = take_base(it);
	sm_slot		slot = take_slot(it);
	uint64_t	used = take(it);
	sm_order	order = take_order(it);

	give(it, sm_judge(&base, &slot, used, &order));
}

static void
call_commit(numbers *it)
{
	sm_base		base = take_base(it);
	sm_slot		slot = take_slot(it);
	sm_order	order = take_order(it);
	uint32_t	answer = sm_commit(&base, &slot, &order, take(it));

	give(it, answer);
	if (answer == SM_DONE)
		give_slot(it, &slot);
}

static void
call_route(numbers *it)
{
	sm_base		base = take_base(it);
	sm_slot		slot = take_slot(it);
	uint64_t	applied = take(it);
	sm_request	request = {0};
	sm_request	onward = {0};

	request.handover = take(it);
	request.cut = take(it);
	request.party = (uint32_t) take(it);
	request.is_passed = (uint32_t) take(it);
	give(it, sm_route(&base, &slot, applied, &request, &onward));
	give(it, onward.handover);
	give(it, onward.cut);
	give(it, onward.party);
	give(it, onward.is_passed);
}

static void
call_begin(numbers *it)
{
	sm_slot		slot = take_slot(it);
	sm_order	order = take_order(it);

	sm_begin(&slot, &order);
	give_slot(it, &slot);
}

static void
call_abandon(numbers *it)
{
	sm_slot		slot = take_slot(it);

	sm_abandon(&slot);
	give_slot(it, &slot);
}

static void
call_seal(numbers *it)
{
	sm_slot		slot = take_slot(it);
	uint64_t	handover = take(it);

	sm_seal(&slot, handover, take(it));
	give_slot(it, &slot);
}

static void
call_may_delete(numbers *it)
{
	sm_base		base = take_base(it);
	sm_slot		slot = take_slot(it);

	give(it, sm_may_delete(&base, &slot));
}

static void
call_has_reached_cut(numbers *it)
{
	sm_slot		slot = take_slot(it);

	give(it, sm_has_reached_cut(&slot, take(it)));
}

static void
call_fence(numbers *it)
{
	sm_base		base = take_base(it);
	sm_reopening reopening;

	reopening.journal = take(it);
	reopening.number = take(it);
	give(it, sm_fence(&base, &reopening, take(it)));
	give_base(it, &base);
}

static void
call_heed(numbers *it)
{
	sm_base		base = take_base(it);
	sm_reopening last;

	last.journal = take(it);
	last.number = take(it);
	sm_heed(&base, &last, take(it));
	give_base(it, &base);
}

static void
call_take(numbers *it)
{
	sm_base		base = take_base(it);
	sm_assignment told = {0};
	uint64_t	count;
	sm_shard   *shards;

	told.kind = (uint32_t) take(it);
	told.journal = take(it);
	told.fence = take(it);
	told.number = take(it);
	told.has_nonce = (uint32_t) take(it);
	told.nonce = take(it);
	count = take(it);
	if (count > (uint64_t) it->left)
		ereport(ERROR, (errcode(ERRCODE_INVALID_PARAMETER_VALUE), errmsg("sm.agent: shards are missing")));
	shards = palloc0(sizeof(sm_shard) * (count + 1));
	for (uint64_t i = 0; i < count; i++)
	{
		shards[i].slot = take_slot(it);
		shards[i].brought.cell = (uint32_t) take(it);
		shards[i].brought.party = (uint32_t) take(it);
		shards[i].brought.handover = take(it);
		shards[i].brought.load = take(it);
		told.slots += shards[i].brought.cell != SM_UNKNOWN;
	}
	give(it, sm_take(&base, &told, shards, count));
	give_base(it, &base);
	for (uint64_t i = 0; i < count; i++)
		give_slot(it, &shards[i].slot);
}

static void
call_publish(numbers *it)
{
	sm_base		base = take_base(it);
	uint64_t	shown = take(it);
	sm_publication publication;

	publication.journal = take(it);
	publication.fence = take(it);
	publication.version = take(it);
	give(it, sm_publish(&base, shown, &publication));
}

static sm_copy
take_copy(numbers *it)
{
	sm_copy		copy = {0};

	copy.view = take(it);
	copy.position = take(it);
	return copy;
}

/* How many copies or views follow: each has two numbers. */
static uint64_t
take_count(numbers *it)
{
	uint64_t	count = take(it);

	if (count > (uint64_t) it->left / 2)
		ereport(ERROR, (errcode(ERRCODE_INVALID_PARAMETER_VALUE), errmsg("sm.agent: copies are missing")));
	return count;
}

static sm_copy *
take_copies(numbers *it, uint64_t count)
{
	sm_copy    *copies = palloc0(sizeof(sm_copy) * (count + 1));

	for (uint64_t i = 0; i < count; i++)
		copies[i] = take_copy(it);
	return copies;
}

static void
call_compare(numbers *it)
{
	sm_copy		one = take_copy(it);
	sm_copy		other = take_copy(it);

	give(it, sm_compare(&one, &other));
}

static void
call_resumes(numbers *it)
{
	sm_copy		copy = take_copy(it);
	uint64_t	count = take_count(it);
	sm_view    *views = palloc0(sizeof(sm_view) * (count + 1));

	for (uint64_t i = 0; i < count; i++)
	{
		views[i].view = take(it);
		views[i].position = take(it);
	}
	give(it, sm_resumes(&copy, views, count, take(it)));
}

static void
call_copied(numbers *it)
{
	uint64_t	wanted = take(it);
	sm_copy		own = take_copy(it);
	uint64_t	count = take_count(it);
	sm_copy    *told = take_copies(it, count);

	give(it, sm_copied(wanted, &own, told, count, take(it)));
}

static void
call_acknowledged(numbers *it)
{
	uint64_t	wanted = take(it);
	sm_copy		own = take_copy(it);
	uint64_t	count = take_count(it);
	sm_copy    *told = take_copies(it, count);

	give(it, sm_acknowledged(wanted, &own, told, count));
}

static const struct
{
	const char *name;
	void		(*call) (numbers *it);
}			calls[] = {
	{"judge", call_judge}, {"commit", call_commit}, {"route", call_route}, {"begin", call_begin}, {"abandon", call_abandon}, {"seal", call_seal},
	{"may_delete", call_may_delete}, {"has_reached_cut", call_has_reached_cut}, {"fence", call_fence}, {"heed", call_heed}, {"take", call_take},
	{"publish", call_publish}, {"compare", call_compare}, {"resumes", call_resumes}, {"copied", call_copied}, {"acknowledged", call_acknowledged},
};

Datum
smplan_agent(PG_FUNCTION_ARGS)
{
	char	   *name = text_to_cstring(PG_GETARG_TEXT_PP(0));
	ArrayType  *array = PG_GETARG_ARRAYTYPE_P(1);
	numbers		it = {0};
	Datum	   *in;
	int			count;

	if (ARR_NDIM(array) > 1 || array_contains_nulls(array))
		ereport(ERROR, (errcode(ERRCODE_INVALID_PARAMETER_VALUE), errmsg("sm.agent: numbers are one row, and none is null")));
	deconstruct_array(array, INT8OID, sizeof(int64), FLOAT8PASSBYVAL, TYPALIGN_DOUBLE, &in, NULL, &count);
	it.in = in;
	it.left = count;
	it.out = palloc(sizeof(Datum) * (count + 16));
	for (size_t i = 0; i < lengthof(calls); i++)
		if (strcmp(calls[i].name, name) == 0)
		{
			calls[i].call(&it);
			if (it.left != 0)
				ereport(ERROR, (errcode(ERRCODE_INVALID_PARAMETER_VALUE), errmsg("sm.agent: %s has %d numbers too many", name, it.left)));
			PG_RETURN_ARRAYTYPE_P(construct_array(it.out, it.count, INT8OID, sizeof(int64), FLOAT8PASSBYVAL, TYPALIGN_DOUBLE));
		}
	ereport(ERROR, (errcode(ERRCODE_INVALID_PARAMETER_VALUE), errmsg("sm.agent: there is no function %s", name)));
}
