% One name for all.
predicate fzn_all_equal_int(array[int] of var int: x) =
  let { array[int] of var int: y = array1d(x) } in forall (k in 2..length(x)) (y[k] = y[1]);
