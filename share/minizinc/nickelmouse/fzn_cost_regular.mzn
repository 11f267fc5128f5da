include "fzn_table_int.mzn";

% A table for each step: (state before, value, state after, cost). The costs are one sum.
predicate fzn_cost_regular(array[int] of var int: x, int: Q, int: S, array[int,int] of int: d, int: q0, set of int: F,
    array[int,int] of int: c, var int: C) =
  let {
    int: n = length(x);
    array[int] of var int: y = array1d(x);
    array[1..n + 1] of var 1..Q: state;
    array[1..n] of var min(array1d(c))..max(array1d(c)): cost;
  } in
  state[1] = q0 /\ state[n + 1] in F /\ C = sum(cost) /\
  forall (k in 1..n) (
    y[k] in 1..S /\
    fzn_table_int([state[k], y[k], state[k + 1], cost[k]], [ [q, s, d[q, s], c[q, s]][column]
      | q in 1..Q, s in 1..S where d[q, s] > 0 /\ s in dom(y[k]), column in 1..4 ]));
