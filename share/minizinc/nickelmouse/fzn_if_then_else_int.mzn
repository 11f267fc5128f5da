include "nickelmouse_branch.mzn";

% Two branches are a sum; more are one choice among the values.
predicate fzn_if_then_else_int(array[int] of var bool: c, array[int] of int: x, var int: y) =
  let { array[int] of var bool: condition = array1d(c); array[int] of int: value = array1d(x) } in
  if length(c) = 2 /\ is_fixed(condition[2]) /\ fix(condition[2]) then
    y = value[2] + (value[1] - value[2]) * bool2int(condition[1])
  else
    y = value[nickelmouse_branch(condition)]
  endif;
