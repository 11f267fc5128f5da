include "nickelmouse_cumulative.mzn";
include "nickelmouse_order.mzn";

% The solver's own.
predicate fzn_cumulative(array[int] of var int: s, array[int] of var int: d, array[int] of var int: r, var int: b);

% With a constant capacity, two tasks that never run together have a Boolean for their order.
predicate fzn_cumulative(array[int] of var int: s, array[int] of int: d, array[int] of int: r, int: b) =
  nickelmouse_ordered(array1d(s), array1d(d), array1d(r), b);
predicate fzn_cumulative(array[int] of var int: s, array[int] of var int: d, array[int] of int: r, int: b) =
  nickelmouse_ordered(array1d(s), array1d(d), array1d(r), b);
predicate fzn_cumulative(array[int] of var int: s, array[int] of var int: d, array[int] of var int: r, int: b) =
  nickelmouse_ordered(array1d(s), array1d(d), array1d(r), b);

predicate nickelmouse_ordered(array[int] of var int: s, array[int] of var int: d, array[int] of var int: r, int: b) =
  let { array[int] of int: tasks = [ i | i in index_set(s) where ub(d[i]) > 0 /\ ub(r[i]) > 0 ] } in
  forall (v in d ++ r) (v >= 0) /\
  if length(tasks) = 0 then b >= 0 \/ length(s) = 0
  else
    nickelmouse_orders([s[i] | i in tasks], [d[i] | i in tasks], [r[i] | i in tasks], b) /\
    nickelmouse_cumulative([s[i] | i in tasks], [d[i] | i in tasks], [r[i] | i in tasks], b)
  endif;
