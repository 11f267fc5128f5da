include "fzn_if_then_else_var_bool.mzn";
predicate fzn_if_then_else_bool(array[int] of var bool: c, array[int] of bool: x, var bool: y) =
  fzn_if_then_else_var_bool(c, x, y);
