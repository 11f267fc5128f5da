include "nickelmouse_first.mzn";

% z is the first true place, or the first of all.
predicate fzn_maximum_arg_bool(array[int] of var bool: x, var int: z) =
  let { var bool: greatest = exists(x); array[index_set(x)] of var bool: is_it = array1d(index_set(x), [greatest -> v | v in x]) } in
  nickelmouse_first(is_it, z);
