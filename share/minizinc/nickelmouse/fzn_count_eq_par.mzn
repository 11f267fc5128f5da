include "nickelmouse_counts.mzn";

% So many have the value y.
predicate fzn_count_eq_par(array[int] of var int: x, int: y, int: c) = nickelmouse_are_true(nickelmouse_are_at(x, y), c);
