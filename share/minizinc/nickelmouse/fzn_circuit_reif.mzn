include "all_different.mzn";

% b says whether x is a circuit: the places, followed from 1, come back to 1 after n steps and no earlier.
predicate fzn_circuit_reif(array[int] of var int: x, var bool: b) =
  let {
    int: n = length(x);
    array[int] of var int: next = array1d(x);
    array[1..n] of var 0..n: step; % the place after k steps, 0 where there is none
    constraint n = 0 \/ step[1] = if next[1] in 1..n then next[1] else 0 endif;
    constraint forall (k in 2..n) (step[k] = if step[k - 1] = 0 then 0
      else let { var int: v = next[max(1, step[k - 1])] } in if v in 1..n then v else 0 endif endif);
  } in
  b <-> (n = 0 \/ (step[n] = 1 /\ forall (k in 1..n - 1) (step[k] > 1)));
