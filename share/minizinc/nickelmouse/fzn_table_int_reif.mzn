% One Boolean a row. There is no limit to the columns.
predicate fzn_table_int_reif(array[int] of var int: x, array[int,int] of int: t, var bool: b) =
  let { array[int] of var int: y = array1d(x) } in
  b <-> exists (row in index_set_1of2(t)) (forall (k in index_set(y)) (y[k] = t[row, min(index_set_2of2(t)) + k - 1]));
