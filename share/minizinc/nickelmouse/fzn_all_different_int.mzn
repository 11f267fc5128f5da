% The solver's own.
predicate fzn_all_different_int(array[int] of var int: x);
