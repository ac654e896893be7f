/* The worked program buffer_and_workers (tests/trees) for Spin, where each of two workers puts ITEMS numbers into a
 * buffer and awaits each put. A transition is an event of the table of events in docs/SEMANTICS.md. A process is
 * all tasks of a role: main, two workers, the puts of each worker, which it makes one after another, the message
 * of each to the logger, and the sum. Of a task that has ended only its result is kept, and of the puts of a worker
 * only that of the last one.
 *
 * usage: spin -a -DITEMS=4 buffer_and_workers.pml
 * The buffer has the list of its numbers; with -DSUM_ALONE their sum alone, which is all that the program asks for.
 * With -DREPLAY there is one run: file history.pml has `#define EVENTS` and `#define HISTORY`, the tasks of its events.
 */
#define MAIN 0
#define PUT (_pid + 2)           /* of a worker, which is process 1 or 2, its puts and its message */
#define LOG (_pid + 4)
#define SUM 7
#define OWN (_pid + 2)           /* its cog; main is in cog 0 */
#define BUFFER 1
#define LOGGER 2

#ifdef REPLAY
#include "history.pml"
short history[EVENTS] = HISTORY;
short at = 0;
short tasks = 1;
short task_of[8];
#define IF(guard) (at < EVENTS && history[at] == task_of[_pid] && (guard)) -> at++
#define BEGUN(role) task_of[role] = tasks; tasks++;
#else
#define IF(guard) (guard)
#define BEGUN(role)
#endif

bool held[5];        /* whether a task holds the cog */
bool ready[8];       /* whether the role has a task that was not taken yet */
bool resolved[8];    /* whether its last task has a result */
int item[5];         /* what a put puts */
int result;          /* of the sum */
byte lines;          /* of the logger */
byte made = 1;       /* how many cogs there are */
#ifdef SUM_ALONE
int kept;
#else
byte count;
byte items[2 * ITEMS];
#endif

inline take(cog) {
  d_step { IF(ready[_pid] && !held[cog]) -> ready[_pid] = false; held[cog] = true }
}

inline call(role) {
  BEGUN(role) resolved[role] = false; ready[role] = true
}

/* A task that takes its cog again is at its `await`, which gets the label `again`. */
#define AWAIT(again, all_resolved, cog) \
again: \
  if \
  :: atomic { IF(all_resolved) -> skip } \
  :: atomic { IF(!(all_resolved)) -> held[cog] = false }; \
     atomic { IF((all_resolved) && !held[cog]) -> held[cog] = true }; \
     goto again \
  fi

inline give(cog) {
  d_step { IF(true) -> resolved[_pid] = true; held[cog] = false }
}

active proctype main() {
  int s;
  d_step { IF(!held[0]) -> held[0] = true };
  d_step { IF(true) -> made++ };
  d_step { IF(true) -> made++ };
  d_step { IF(true) -> made++ };
  d_step { IF(true) -> made++ };
  d_step { IF(true) -> call(1) };
  d_step { IF(true) -> call(2) };
  AWAIT(both, resolved[1] && resolved[2], 0);
  atomic { IF(resolved[1]) -> skip };
  d_step { IF(resolved[2]) -> skip };
  d_step { IF(true) -> call(SUM) };
  AWAIT(last, resolved[SUM], 0);
  atomic { IF(resolved[SUM]) -> s = result };
  d_step { IF(true) -> assert(s == ITEMS * (2 * ITEMS - 1)) };    /* it prints this sum */
  give(0);
end:
  false
}

active [2] proctype work() {
  int i;
  take(OWN);
  d_step { IF(true) -> i = (_pid - 1) * ITEMS };
  do
  :: d_step { IF(i < _pid * ITEMS) -> skip };
     d_step { IF(true) -> item[PUT] = i; call(PUT) };
     AWAIT(again, resolved[PUT], OWN);
     atomic { IF(true) -> i++ }
  :: d_step { IF(i == _pid * ITEMS) -> skip };
     break
  od;
  atomic { IF(true) -> call(LOG) };
  give(OWN);
end:
  false
}

active [2] proctype put() {
end:
  do
  :: take(BUFFER);
#ifdef SUM_ALONE
     d_step { IF(true) -> kept = kept + item[_pid] };
#else
     d_step { IF(true) -> items[count] = item[_pid]; count++ };
#endif
     give(BUFFER)
  od
}

active [2] proctype log() {
  take(LOGGER);
  d_step { IF(true) -> lines++ };
  give(LOGGER);
end:
  false
}

active proctype sum() {
  int s;
  byte n;
  take(BUFFER);
#ifdef SUM_ALONE
  d_step { IF(true) -> s = kept };
#else
  d_step { IF(true) -> for (n : 1 .. count) { s = s + items[n - 1] } };
#endif
  d_step { IF(true) -> result = s; resolved[_pid] = true; held[BUFFER] = false };
end:
  false
}
