include "fzn_inverse.mzn";
include "nickelmouse_from_one.mzn";

% Called before each all different. With as many values as places, up to 100, each value has a place too, and clauses may speak of it.
predicate analyse_all_different(array[int] of var int: x) =
  let { array[int] of var int: y = array1d(x); int: n = length(x) } in
  if n in 3..100 /\ forall (v in y) (has_bounds(v)) /\ ub_array(y) - lb_array(y) + 1 = n then
    let { array[1..n] of var 1..n: place; int: first = lb_array(y) } in
    fzn_inverse(nickelmouse_from_one(y, first), place)
  else true endif;
predicate analyse_all_different(array[int] of var opt int: x) = true;

predicate analyse_all_different_reif(array[int] of var int: x, var bool: b) = b;
predicate analyse_all_different_reif(array[int] of var opt int: x, var bool: b) = b;
