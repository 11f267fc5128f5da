include "fzn_table_int.mzn";

% A table for each step: (state before, value, state after).
predicate fzn_regular_nfa(array[int] of var int: x, int: Q, int: S, array[int,int] of set of int: d, int: q0, set of int: F) =
  let { int: n = length(x); array[int] of var int: y = array1d(x); array[1..n + 1] of var 1..Q: state } in
  state[1] = q0 /\ state[n + 1] in F /\
  forall (k in 1..n) (
    y[k] in 1..S /\
    fzn_table_int([state[k], y[k], state[k + 1]], [ [q, s, next][c]
      | q in 1..Q, s in 1..S, next in d[q, s] where s in dom(y[k]), c in 1..3 ]));
