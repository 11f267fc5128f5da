include "nickelmouse_first.mzn";

% z is the first false place, or the first of all.
predicate fzn_minimum_arg_bool(array[int] of var bool: x, var int: z) =
  let { var bool: least = forall(x); array[index_set(x)] of var bool: is_it = array1d(index_set(x), [v -> least | v in x]) } in
  nickelmouse_first(is_it, z);
