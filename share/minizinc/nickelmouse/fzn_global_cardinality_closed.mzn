include "fzn_global_cardinality.mzn";

% No place has a value outside the cover.
predicate fzn_global_cardinality_closed(array[int] of var int: x, array[int] of int: cover, array[int] of var int: counts) =
  forall (v in x) (v in array2set(cover)) /\ fzn_global_cardinality(x, cover, counts);
