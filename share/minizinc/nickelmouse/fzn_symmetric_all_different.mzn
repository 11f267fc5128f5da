include "fzn_inverse.mzn";

% A pairing, which is its own inverse.
predicate fzn_symmetric_all_different(array[int] of var int: x) =
  let {
    int: before = min(index_set(x)) - 1;
    array[int] of var int: y = if before = 0 then array1d(x) else [v - before | v in x] endif;
  } in
  if length(x) = 0 then true else fzn_inverse(y, y) endif;
