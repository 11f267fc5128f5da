predicate fzn_table_bool_reif(array[int] of var bool: x, array[int,int] of bool: t, var bool: b) =
  let { array[int] of var bool: y = array1d(x) } in
  b <-> exists (row in index_set_1of2(t)) (forall (k in index_set(y)) (y[k] = t[row, min(index_set_2of2(t)) + k - 1]));
