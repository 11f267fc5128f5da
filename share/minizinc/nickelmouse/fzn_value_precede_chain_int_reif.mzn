include "nickelmouse_chain.mzn";
include "fzn_table_int.mzn";

% b says whether the chain's values come in its order: the count of those that have been met, -1 once one came too early.
predicate fzn_value_precede_chain_int_reif(array[int] of int: T, array[int] of var int: X, var bool: b) =
  let {
    int: n = length(X);
    int: m = length(T);
    array[int] of int: chain = array1d(T);
    array[int] of var int: y = array1d(X);
  } in
  if nickelmouse_is_long_chain(chain, y) then
    let { array[int] of var int: link = nickelmouse_links(chain, y); array[int] of var int: met = nickelmouse_met(m, link) } in
    b <-> forall (k in 1..n) (link[k] <= met[k - 1] + 1)
  else
    let {
      array[0..n] of var -1..m: met;
      constraint met[0] = 0;
      constraint forall (k in 1..n) (
        fzn_table_int([met[k - 1], y[k], met[k]],
          [ [q, v, if q < 0 \/ v in {chain[i] | i in q + 2..m} then -1 elseif q < m /\ v = chain[min(m, q + 1)] then q + 1 else q endif][c]
          | q in -1..min(m, k - 1), v in dom(y[k]), c in 1..3 ]));
    } in b <-> met[n] >= 0
  endif;
