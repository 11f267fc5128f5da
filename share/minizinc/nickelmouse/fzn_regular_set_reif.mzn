include "nickelmouse_automaton_reif.mzn";
predicate fzn_regular_set_reif(array[int] of var int: x, int: Q, set of int: S, array[int,int] of int: d, int: q0, set of int: F,
    var bool: b) =
  nickelmouse_automaton_reif(array1d(x), Q, S, d, q0, F, b);
