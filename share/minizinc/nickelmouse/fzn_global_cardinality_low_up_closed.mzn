include "fzn_global_cardinality_low_up.mzn";
predicate fzn_global_cardinality_low_up_closed(array[int] of var int: x, array[int] of int: cover,
    array[int] of int: lbound, array[int] of int: ubound) =
  forall (v in x) (v in array2set(cover)) /\ fzn_global_cardinality_low_up(x, cover, lbound, ubound);
