include "fzn_nvalue.mzn";

% How many values there are is a number of its own, which n is or is not.
predicate fzn_nvalue_reif(var int: n, array[int] of var int: x, var bool: b) =
  let { var 0..length(x): count } in fzn_nvalue(count, x) /\ (b <-> count = n);
