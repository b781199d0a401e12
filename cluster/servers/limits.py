"""How long a server waits for what, in seconds, and how much it sends of a copy at once, in bytes."""
from ..wire import LONGEST_LINE

# A follower that is gone or silent for so long is no longer waited for; it has to catch up before it counts again.
DEAD_AFTER = 3.0
SILENT_AFTER = 4.0
# Work that holds requests back is given up after the first, work that copies if nothing comes for the second; the order comes again.
HOLDING = 3.0
COPYING = 20.0
# A fence waits so long for requests of handovers that run.
FENCING = 0.7
# A request that may not be executed yet waits so long, and a passed one for its reply.
WAITING = 1.5
PASSING = 4.0
# One that was executed waits so long for those who are to have it; then its client has to ask again. (longer than for one who is silent)
ACKNOWLEDGING = 6.0
# One step between servers, and one question for leave.
STEP = 3.0
LEAVING = 2.0
# How often an Unknown server asks for its slots, and a source looks after followers that are gone.
ASKING = 0.7
PROBING = 2.0
# How often a primary looks whether it is to tell controllers of its copies.
COPIED = 0.3
# For how long a source tells that a follower had more writes than it has.
TELLING = 30.0
# After a copy that broke off or was refused, a follower rests so long before it asks for another one, doubled each time up to the second.
RESTING = 0.25
RESTING_AT_MOST = 16.0
# A copy goes in pieces of about so many bytes; a value is never divided. The last writes before it go along: so many, of so many bytes at most.
PIECE = 1 << 17
KEPT, KEPT_BYTES = 100, 1 << 20
# A piece is one line, so a value has at most so many bytes. A source that has a larger one makes no copy for so long.
LARGEST_VALUE = LONGEST_LINE // 4 * 3 - (1 << 20)
TOO_LARGE_FOR = 300.0
