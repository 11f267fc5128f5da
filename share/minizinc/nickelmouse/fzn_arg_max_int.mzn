include "nickelmouse_first.mzn";

% z is the first place of the greatest value.
predicate fzn_maximum_arg_int(array[int] of var int: x, var int: z) =
  let { var int: greatest = max(x); array[index_set(x)] of var bool: is_it = array1d(index_set(x), [v >= greatest | v in x]) } in
  nickelmouse_first(is_it, z);
