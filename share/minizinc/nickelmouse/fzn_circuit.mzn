% The solver's own: places and successors are 1..n.
predicate fzn_circuit(array[int] of var int: x);
