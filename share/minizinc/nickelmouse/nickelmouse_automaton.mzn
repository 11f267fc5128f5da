include "fzn_table_int.mzn";

% A table for each step, of the states that are reached from the start: (state before, value, state after). Where its rows would be too
% many for a file, an entry of d.
predicate nickelmouse_automaton(array[int] of var int: x, int: Q, set of int: S, array[int,int] of int: d, int: q0, set of int: F) =
  let { int: n = length(x); array[1..n + 1] of var 1..Q: state } in
  state[1] = q0 /\ state[n + 1] in F /\
  if Q * card(S) <= 30000 then nickelmouse_steps(x, S, d, state, nickelmouse_reached(x, S, d, [{q0}]))
  else forall (k in 1..n) (x[k] in S /\ state[k + 1] = d[state[k], x[k]]) endif;

predicate nickelmouse_steps(array[int] of var int: x, set of int: S, array[int,int] of int: d, array[int] of var int: state,
    array[int] of set of int: reached) =
  forall (k in index_set(x)) (
    x[k] in S /\ state[k + 1] in reached[k + 1] /\
    fzn_table_int([state[k], x[k], state[k + 1]], [ [q, s, d[q, s]][c]
      | q in reached[k], s in S intersect dom(x[k]) where d[q, s] > 0, c in 1..3 ]));

% the states that may stand before each value and after the last one; the list so far is continued
function array[int] of set of int: nickelmouse_reached(array[int] of var int: x, set of int: S, array[int,int] of int: d,
    array[int] of set of int: so_far) =
  let { int: k = length(so_far) } in
  if k > length(x) then so_far
  else
    nickelmouse_reached(x, S, d, so_far ++
      [{ d[q, s] | q in so_far[k], s in S intersect dom(x[k]) where d[q, s] > 0 }])
  endif;
