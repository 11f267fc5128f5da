include "fzn_value_precede_chain_int.mzn";

% The values above 0 come in the order 1, 2, ..
predicate fzn_seq_precede_chain_int(array[int] of var int: X) =
  if length(X) = 0 then true else fzn_value_precede_chain_int([v | v in 1..ub_array(X)], X) endif;
