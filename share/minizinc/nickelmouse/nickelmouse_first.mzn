% z is the first place that is true; some one is
predicate nickelmouse_first(array[int] of var bool: is_it, var int: z) =
  z in index_set(is_it) /\
  forall (k in index_set(is_it)) ((is_it[k] -> z <= k) /\ (z = k -> is_it[k]));
