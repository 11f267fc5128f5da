include "nickelmouse_automaton.mzn";
predicate fzn_regular(array[int] of var int: x, int: Q, int: S, array[int,int] of int: d, int: q0, set of int: F) =
  nickelmouse_automaton(array1d(x), Q, 1..S, d, q0, F);
