include "nickelmouse_chain.mzn";
include "fzn_table_int.mzn";

% The count of the chain's values that have been met. A table for each step, (count before, value, count after), where these are few.
predicate fzn_value_precede_chain_int(array[int] of int: T, array[int] of var int: X) =
  let {
    int: n = length(X);
    int: m = length(T);
    array[int] of int: chain = array1d(T);
    array[int] of var int: y = array1d(X);
  } in
  if nickelmouse_is_long_chain(chain, y) then
    let { array[int] of var int: link = nickelmouse_links(chain, y); array[int] of var int: met = nickelmouse_met(m, link) } in
    forall (k in 1..n) (link[k] <= met[k - 1] + 1)
  else
    let { array[0..n] of var 0..m: met } in
    met[0] = 0 /\
    forall (k in 1..n) (
      fzn_table_int([met[k - 1], y[k], met[k]],
        [ [q, v, if q < m /\ v = chain[min(m, q + 1)] then q + 1 else q endif][c]
        | q in 0..min(m, k - 1), v in dom(y[k]) where not (v in {chain[i] | i in q + 2..m}), c in 1..3 ]))
  endif;
