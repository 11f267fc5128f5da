include "nickelmouse_first.mzn";

% z is the first place of the least value.
predicate fzn_minimum_arg_int(array[int] of var int: x, var int: z) =
  let { var int: least = min(x); array[index_set(x)] of var bool: is_it = array1d(index_set(x), [v <= least | v in x]) } in
  nickelmouse_first(is_it, z);
