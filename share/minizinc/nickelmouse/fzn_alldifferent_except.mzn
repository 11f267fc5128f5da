include "nickelmouse_own.mzn";
include "nickelmouse_counts.mzn";

% At most one place for each value that is not excepted. Where this would be too many Booleans, all are different once each place with an
% excepted value has a value of its own.
predicate fzn_alldifferent_except(array[int] of var int: vs, set of int: S) =
  let { array[int] of var int: x = array1d(vs) } in
  if nickelmouse_are_too_many(x) /\ ub_array(x) + length(x) <= 1000000000 then
    nickelmouse_all_different_but([ v in S | v in x ], x)
  else
    forall (k in dom_array(x) diff S) (
      let { array[int] of var bool: there = nickelmouse_are_at(x, k) } in
      if length(there) < 2 then true else bool_lin_le([1 | b in there], there, 1) endif)
  endif;
