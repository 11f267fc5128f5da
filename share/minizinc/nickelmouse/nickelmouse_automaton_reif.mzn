include "fzn_table_int.mzn";

% b says whether the automaton ends in F: a table for each step, where 0 is the state without a way on.
predicate nickelmouse_automaton_reif(array[int] of var int: x, int: Q, set of int: S, array[int,int] of int: d, int: q0, set of int: F,
    var bool: b) =
  let {
    int: n = length(x);
    array[1..n + 1] of var 0..Q: state;
    constraint state[1] = q0;
    constraint forall (k in 1..n) (
      fzn_table_int([state[k], x[k], state[k + 1]], [ [q, v, if q > 0 /\ v in S then d[q, v] else 0 endif][c]
        | q in 0..Q, v in dom(x[k]), c in 1..3 ]));
  } in
  b <-> state[n + 1] in F;
