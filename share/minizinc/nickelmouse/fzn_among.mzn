include "nickelmouse_counts.mzn";

% So many have a value of the set.
predicate fzn_among(var int: n, array[int] of var int: x, set of int: v) = nickelmouse_are_true([ w in v | w in x ], n);
