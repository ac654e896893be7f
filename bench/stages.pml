/* The generated classes (`programs_of` in sources.sh) for Spin: main makes STAGES objects, each in a cog of its own,
 * and sends `go` to the last one; each but the first sends it on and awaits the answer. A transition is an event of
 * the table of events in docs/SEMANTICS.md, and a process is a task: its number is that of the task. Object s is in
 * cog s, and main in cog 0. A process does not end, so that no transition is added for its end. An event to which
 * control jumps is `atomic`, since no jump may lead into a `d_step`.
 *
 * usage: spin -a -DSTAGES=8 stages.pml
 * With -DREPLAY there is one run: file history.pml has `#define EVENTS` and `#define HISTORY`, the tasks of its events.
 * With -DJOINED a call of a stage and the release at the `await` after it are one transition.
 */
#ifdef REPLAY
#include "history.pml"
short history[EVENTS] = HISTORY;
short at = 0;
#define IF(guard) (at < EVENTS && history[at] == _pid && (guard)) -> at++
#else
#define IF(guard) (guard)
#endif

byte next_of[STAGES + 1];    /* the field `next` of each object; 0 is null */
bool held[STAGES + 1];       /* whether a task holds the cog */
bool resolved[STAGES + 1];   /* whether the task has a result */
byte result[STAGES + 1];

inline take(cog) {
  d_step { IF(!held[cog]) -> held[cog] = true }
}

inline wake(future, cog) {
  atomic { IF(resolved[future] && !held[cog]) -> held[cog] = true }
}

/* A task that takes its cog again is at its `await`, whose label is `again`. */
inline await(future, cog) {
  if
  :: atomic { IF(resolved[future]) -> skip }
  :: atomic { IF(!resolved[future]) -> held[cog] = false };
     wake(future, cog);
     goto again
  fi
}

inline give(value, cog) {
  d_step { IF(true) -> result[_pid] = value; resolved[_pid] = true; held[cog] = false }
}

proctype go(byte stage; byte x) {
  byte r, f;
  take(stage);
  d_step { IF(true) -> r = x + 1 };
  if
  :: d_step { IF(next_of[stage] != 0) -> skip };
#ifdef JOINED
     atomic { IF(true) -> f = run go(next_of[stage], r); held[stage] = false };
     wake(f, stage);
     d_step { IF(resolved[f]) -> skip };
#else
     atomic { IF(true) -> f = run go(next_of[stage], r) };
again:
     await(f, stage);
#endif
     atomic { IF(resolved[f]) -> r = result[f] }
  :: d_step { IF(next_of[stage] == 0) -> skip }
  fi;
  give(r, stage);
end:
  false
}

init {
  byte object, f, x;
  take(0);
  do
  :: d_step { IF(object < STAGES) -> object++; next_of[object] = object - 1 }
  :: atomic { IF(object == STAGES) -> f = run go(object, 0) };
     break
  od;
again:
  await(f, 0);
  atomic { IF(resolved[f]) -> x = result[f] };
  d_step { IF(true) -> assert(x == STAGES) };   /* it prints this number */
  give(0, 0);
end:
  false
}
