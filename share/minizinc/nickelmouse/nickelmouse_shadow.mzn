include "fzn_cumulative.mzn";

% What the boxes use of the second side, seen along the first: no more than from the least place to where the last of them ends, which is
% a variable, so that a better bound of that side is one here.
predicate nickelmouse_shadow(array[int] of var int: s, array[int] of var int: d, array[int] of var int: y, array[int] of var int: dy) =
  if length(s) > 0 /\ forall (v in array1d(s) ++ array1d(d) ++ array1d(y) ++ array1d(dy)) (has_bounds(v)) /\
      lb_array(d) >= 0 /\ lb_array(dy) >= 0 then
    let { var int: most = max([y[i] + dy[i] | i in index_set(y)]) - lb_array(y) } in
    fzn_cumulative(array1d(s), array1d(d), array1d(dy), most)
  else true endif;
