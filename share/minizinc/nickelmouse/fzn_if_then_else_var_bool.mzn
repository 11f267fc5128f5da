% Clauses: where a condition is true and none before it, the value is its branch's.
predicate fzn_if_then_else_var_bool(array[int] of var bool: c, array[int] of var bool: x, var bool: y) =
  let { array[int] of var bool: condition = array1d(c); array[int] of var bool: value = array1d(x); int: n = length(c) } in
  if n <= 20 then
    forall (k in 1..n) (
      bool_clause([condition[i] | i in 1..k - 1] ++ [value[k]], [condition[k], y]) /\
      bool_clause([condition[i] | i in 1..k - 1] ++ [y], [condition[k], value[k]]))
  else
    let { array[0..n] of var bool: some } in % some of the first k is true
    not some[0] /\
    forall (k in 1..n) (
      bool_clause([some[k]], [some[k - 1]]) /\
      bool_clause([some[k]], [condition[k]]) /\
      bool_clause([some[k - 1], condition[k]], [some[k]]) /\
      bool_clause([some[k - 1], value[k]], [condition[k], y]) /\
      bool_clause([some[k - 1], y], [condition[k], value[k]]))
  endif;
