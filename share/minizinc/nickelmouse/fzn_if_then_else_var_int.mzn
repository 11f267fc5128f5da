include "nickelmouse_branch.mzn";

% The number of the first condition that is true chooses the value.
predicate fzn_if_then_else_var_int(array[int] of var bool: c, array[int] of var int: x, var int: y) =
  let { array[int] of var int: value = array1d(x) } in
  y = value[nickelmouse_branch(array1d(c))];
