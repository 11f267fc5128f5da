include "nickelmouse_counts.mzn";

% A sum for each value; where these would be too long, tasks. The counts are no more than the places, and as many where no other value is left.
predicate fzn_global_cardinality(array[int] of var int: x, array[int] of int: cover, array[int] of var int: counts) =
  let { array[int] of var int: y = array1d(x); array[int] of int: k = array1d(cover); array[int] of var int: c = array1d(counts) } in
  if nickelmouse_are_long_sums(y, k) then nickelmouse_counts(y, k, c)
  else
    forall (i in index_set(k)) (nickelmouse_are_true(nickelmouse_are_at(y, k[i]), c[i])) /\
    if card(array2set(k)) < length(k) then true
    elseif forall (v in y) (has_bounds(v) /\ dom(v) subset array2set(k)) then sum(c) = length(y)
    else sum(c) <= length(y)
    endif
  endif;
