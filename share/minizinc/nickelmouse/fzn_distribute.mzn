include "fzn_count_eq.mzn";
include "fzn_global_cardinality.mzn";

% Of constant values as with global_cardinality.
predicate fzn_distribute(array[int] of var int: card, array[int] of var int: value, array[int] of var int: base) =
  let { array[int] of var int: c = array1d(card); array[int] of var int: k = array1d(value) } in
  if forall (v in k) (is_fixed(v)) then fzn_global_cardinality(base, [fix(v) | v in k], c)
  else forall (i in index_set(k)) (fzn_count_eq(base, k[i], c[i]))
  endif;
