% The solver's own: places and values are 1..n on both sides.
predicate fzn_inverse(array[int] of var int: f, array[int] of var int: g);
