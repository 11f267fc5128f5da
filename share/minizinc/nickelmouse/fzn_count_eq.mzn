include "nickelmouse_counts.mzn";

% So many have the value of y.
predicate fzn_count_eq(array[int] of var int: x, var int: y, var int: c) = nickelmouse_are_true([ v = y | v in x ], c);
predicate fzn_count_eq(array[int] of var int: x, int: y, var int: c) = nickelmouse_are_true(nickelmouse_are_at(x, y), c);
