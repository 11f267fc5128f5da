include "fzn_cumulative.mzn";
include "nickelmouse_cumulative.mzn";
include "nickelmouse_order.mzn";

% One task after the other: tasks of one machine. A task of length 0 runs within no other; up to 1,225 pairs of a task that may be so short and
% another have an order, more of them are tasks of a second kind.
predicate fzn_disjunctive_strict(array[int] of var int: s, array[int] of var int: d) =
  let {
    array[int] of var int: start = array1d(s);
    array[int] of var int: length_of = array1d(d);
    array[int] of int: tasks = [ i | i in index_set(start) where ub(length_of[i]) > 0 ];
    array[int] of int: points = [ i | i in index_set(start) where lb(length_of[i]) <= 0 ];
    int: others = length(start) - length(points);
  } in
  forall (v in length_of) (v >= 0) /\
  if length(points) * (length(points) - 1) div 2 + length(points) * others <= 1225 then
    forall (i, j in index_set(start) where i < j /\ (lb(length_of[i]) <= 0 \/ lb(length_of[j]) <= 0)) (
      nickelmouse_order(start[i], length_of[i], start[j], length_of[j]))
  else nickelmouse_points(start, length_of, tasks, points)
  endif /\
  if length(tasks) < 2 then true
  else fzn_cumulative([start[i] | i in tasks], [length_of[i] | i in tasks], [1 | i in tasks], 1) endif;

% No task of length 0 begins within another. Each is a task of length 1 that ends where it is, beside others of its kind, and beside no other
% task, from where that begins to one before where it ends.
predicate nickelmouse_points(array[int] of var int: start, array[int] of var int: length_of, array[int] of int: tasks, array[int] of int: points) =
  let {
    array[int] of int: inner = [ i | i in tasks where ub(length_of[i]) > 1 ];
    int: all = length(points);
  } in
  if length(inner) = 0 then true
  else
    nickelmouse_cumulative(
      [start[i] | i in inner] ++ [start[i] - 1 | i in points],
      [ if lb(length_of[i]) > 0 then length_of[i] - 1 else length_of[i] - 1 + bool2int(length_of[i] = 0) endif | i in inner ] ++ [1 | i in points],
      [all | i in inner] ++ [bool2int(length_of[i] = 0) | i in points],
      all)
  endif;
