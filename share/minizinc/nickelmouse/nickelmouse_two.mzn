% all of them have the same two values, one beside the other, or one of these
test nickelmouse_are_two(array[int] of var int: x) =
  length(x) > 0 /\ forall (v in x) (has_bounds(v)) /\ ub_array(x) - lb_array(x) = 1;

% for each of x whether it has the greater of the two values that those of x and y have
function array[int] of var bool: nickelmouse_are_greater(array[int] of var int: x, array[int] of var int: y) =
  let { int: greater = ub_array(x ++ y) } in [v = greater | v in x];
