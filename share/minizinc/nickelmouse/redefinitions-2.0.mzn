% b says whether the clause is true.
predicate bool_clause_reif(array[int] of var bool: as, array[int] of var bool: bs, var bool: b) =
  bool_clause(as, bs ++ [b]) /\
  forall (a in as) (bool_le(a, b)) /\
  forall (c in bs) (bool_clause([c, b], []));

predicate array_int_maximum(var int: m, array[int] of var int: x);
predicate array_int_minimum(var int: m, array[int] of var int: x);

predicate array_int_maximum_reif(var int: m, array[int] of var int: x, var bool: b) = b <-> m = max(x);
predicate array_int_minimum_reif(var int: m, array[int] of var int: x, var bool: b) = b <-> m = min(x);
