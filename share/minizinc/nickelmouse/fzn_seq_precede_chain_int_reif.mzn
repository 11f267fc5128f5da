include "fzn_value_precede_chain_int_reif.mzn";

% b says whether the values above 0 come in the order 1, 2, ..
predicate fzn_seq_precede_chain_int_reif(array[int] of var int: X, var bool: b) =
  if length(X) = 0 then b else fzn_value_precede_chain_int_reif([v | v in 1..ub_array(X)], X, b) endif;
