include "fzn_table_int.mzn";
predicate fzn_table_bool(array[int] of var bool: x, array[int,int] of bool: t) =
  if length(x) = 0 then card(index_set_1of2(t)) > 0
  else fzn_table_int([bool2int(v) | v in x], [bool2int(v) | v in array1d(t)]) endif;
