/* QmxC, the numbered program cmember(p) of section 3.2 of the paper with the history variable of 3.4, from the state of zeros;
   and one move that the paper does not have, the last option of the loop. Each alternative of a numbered statement is one option
   and one indivisible step, and so is that move: the states that Spin stores are the reachable tables, and its transitions, but
   for one, the pairs of a table and a step possible there (see README.md).
     -DN=2 or -DN=3   the processes are 0 .. N - 1
     -DBROKEN         the control: the completing write at 24 keeps est as it is
     -DMX_ALONE       asserts mutual exclusion alone, and nothing of A(k) */

/* each(f): f of every process; sum(f, x): their sum; levels(f): f of every k from 0 to N */
#if N == 2
#define each(f)    f(0) f(1)
#define sum(f, x)  (f(0, x) + f(1, x))
#define levels(f)  f(0) f(1) f(2)
#elif N == 3
#define each(f)    f(0) f(1) f(2)
#define sum(f, x)  (f(0, x) + f(1, x) + f(2, x))
#define levels(f)  f(0) f(1) f(2) f(3)
#else
#error N must be 2 or 3
#endif

/* a set of processes: bit q says whether q is in it */
#define Process     ((1 << N) - 1)
#define has(s, q)   (((s) >> (q)) & 1)
#define less(s, q)  ((s) & ~(1 << (q)))
#define size(s)     (has(s, 0) + has(s, 1) + has(s, 2))

/* shared; the cells of turn are 1 .. N - 1, and 0 stays 0 */
bit   act[N];
byte  turn[N];

/* private: cell p belongs to p; a level below 0 would be seen by J0(0) */
byte  pc[N] = 10;
short level[N];
byte  est[N];
byte  lis[N];
bit   bb[N];

/* the history variable of 3.4 */
byte  lwb[N];

/* the competitors: level >= 0 in 3.4, which by the refinement of 3.3 is a location from 21 to 30 */
#define competes(q)   (21 <= pc[q] && pc[q] <= 30)
#define bit_of(q, b)  (competes(q) * (b << q))
#define Cp            sum(bit_of, 1)

/* the assertions: MX of section 2, and J0(k) of 3.5, where cc is "at 24"; J0(N) cannot fail */
#define stands(q, l)  (pc[q] == l)
#define MX            assert(sum(stands, 30) <= 1);
#define in_A(q, k)    (competes(q) && (level[q] < k || (pc[q] != 24 && size(lwb[q]) < k)))
#define J0(k)         assert(sum(in_A, k) <= k);

/* Every step ends in go(l), which asserts of the state after it. The initial state is one of those too: from it the first
   option, staying at 10, leads back to it. */
#ifdef MX_ALONE
#define holds  MX
#else
#define holds  MX levels(J0)
#endif
#define p      _pid
#define at(l)  pc[p] == l
#define go(l)  pc[p] = l; holds

/* what there is one of for each q */
#define look(q)     :: d_step { at(22) && has(lis[p], q) -> lis[p] = less(lis[p], q); \
                                est[p] = (act[q] -> est[p] : less(est[p], q)); go(22) }
#define scrawl(q)   :: d_step { at(24) -> turn[level[p]] = q; go(24) }
#define forget(q)   lwb[q] = less(lwb[q], p);

/* the tests of 23 */
#define fewer  (size(est[p]) < level[p])
#define mine   (turn[level[p]] == p)

active [N] proctype cmember()
{
    do
    /* 10: not competing; stays so, or begins */
    :: d_step { at(10) -> go(10) }
    :: d_step { at(10) -> go(20) }

    /* 20: writes true to act[p]: any value while that lasts, then entry(p) of 3.4 */
    :: d_step { at(20) -> act[p] = 0; go(20) }
    :: d_step { at(20) -> act[p] = 1; go(20) }
    :: d_step { at(20) -> lwb[p] = Cp; act[p] = 1; level[p] = N - 1; est[p] = less(Process, p); go(21) }

    /* 21: above level 0 all of est is to be looked at, on level 0 the critical section is free */
    :: d_step { at(21) && level[p] > 0 -> lis[p] = est[p]; go(22) }
    :: d_step { at(21) && level[p] <= 0 -> go(30) }

    /* 22: takes any q out of lis, and out of est too where act[q] reads false; none left: on to 23 */
    each(look)
    :: d_step { at(22) && lis[p] == 0 -> go(23) }

    /* 23: est smaller than the level: down to its size; else turn not written yet: to 24; else another's name in turn: one
           level down; else around again */
    :: d_step { at(23) && fewer -> level[p] = size(est[p]); bb[p] = 0; go(21) }
    :: d_step { at(23) && !fewer && !bb[p] -> go(24) }
    :: d_step { at(23) && !fewer && bb[p] && !mine -> level[p] = level[p] - 1; bb[p] = 0; go(21) }
    :: d_step { at(23) && !fewer && bb[p] && mine -> go(21) }

    /* 24: writes p to turn[level]: any process while that lasts, then push(p) of 3.4 */
    each(scrawl)
    :: d_step { at(24) -> turn[level[p]] = p; bb[p] = 1;
#ifndef BROKEN
                est[p] = less(Process, p);
#endif
                lwb[p] = less(Cp, p); go(21) }

    /* 30: the critical section, and exit(p) of 3.4: p goes out of every lwb */
    :: d_step { at(30) -> each(forget) go(40) }

    /* 40: writes false to act[p]: any value while that lasts */
    :: d_step { at(40) -> act[p] = 0; go(40) }
    :: d_step { at(40) -> act[p] = 1; go(40) }
    :: d_step { at(40) -> act[p] = 0; go(10) }

    /* not in section 3.2: a process at 20 cancels. Its write of act[p] ends there, with whatever act[p] holds, and nothing else
       changes */
    :: d_step { at(20) -> go(40) }
    od
}
