include "nickelmouse_counts.mzn";

% A sum for each value, between its bounds; where these would be too long, tasks.
predicate fzn_global_cardinality_low_up(array[int] of var int: x, array[int] of int: cover,
    array[int] of int: lbound, array[int] of int: ubound) =
  let {
    array[int] of var int: y = array1d(x);
    array[int] of int: k = array1d(cover);
    array[int] of int: low = array1d(lbound);
    array[int] of int: up = array1d(ubound);
    int: all = length(y);
  } in
  if not nickelmouse_are_long_sums(y, k) then
    forall (i in index_set(k)) (
      let { array[int] of var bool: there = nickelmouse_are_at(y, k[i]) } in
      if low[i] <= 0 then true else bool_lin_le([-1 | b in there], there, -low[i]) endif /\
      if up[i] >= length(there) then true else bool_lin_le([1 | b in there], there, up[i]) endif)
  elseif forall (l in low) (l <= 0) then nickelmouse_at_most(y, k, [min(all, u) | u in up])
  else nickelmouse_counts(y, k, [ let { var max(0, low[i])..min(all, up[i]): count } in count | i in index_set(k) ])
  endif;
