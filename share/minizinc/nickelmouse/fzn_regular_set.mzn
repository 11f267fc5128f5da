include "nickelmouse_automaton.mzn";
predicate fzn_regular_set(array[int] of var int: x, int: Q, set of int: S, array[int,int] of int: d, int: q0, set of int: F) =
  nickelmouse_automaton(array1d(x), Q, S, d, q0, F);
predicate fzn_regular(array[int] of var int: x, int: Q, set of int: S, array[int,int] of int: d, int: q0, set of int: F) =
  nickelmouse_automaton(array1d(x), Q, S, d, q0, F);
