include "nickelmouse_seen.mzn";

% t stands nowhere before the first s.
predicate fzn_value_precede_int(int: s, int: t, array[int] of var int: x) =
  if s = t then true
  else
    let { array[int] of var int: y = array1d(x); array[int] of var bool: seen = nickelmouse_seen(s, y) } in
    forall (k in index_set(y)) (y[k] = t -> seen[k - 1])
  endif;
