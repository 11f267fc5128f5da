include "nickelmouse_seen.mzn";

% b says whether t stands nowhere before the first s.
predicate fzn_value_precede_int_reif(int: s, int: t, array[int] of var int: x, var bool: b) =
  if s = t then b
  else
    let { array[int] of var int: y = array1d(x); array[int] of var bool: seen = nickelmouse_seen(s, y) } in
    b <-> forall (k in index_set(y)) (y[k] = t -> seen[k - 1])
  endif;
