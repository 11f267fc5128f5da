include "all_different.mzn";

% A place that leads to itself is left out. The others count their steps from the first of them: 0 for those left out. Up to 100 places, each
% pair has the step from one to the other.
predicate fzn_subcircuit(array[int] of var int: x) =
  let {
    int: n = length(x);
    int: before = min(index_set(x)) - 1;
    array[int] of var int: next = if before = 0 then array1d(x) else [v - before | v in x] endif;
    array[1..n] of var bool: out = [next[i] = i | i in 1..n];
    array[1..n] of var 0..n: step;
    array[0..n] of var bool: none; % all of the first k are out
    constraint none[0];
    constraint forall (k in 1..n) (
      bool_clause([none[k]], [none[k - 1], out[k]]) /\ bool_clause([none[k - 1]], [none[k]]) /\ bool_clause([out[k]], [none[k]]));
    array[1..n] of var bool: first = [none[k - 1] /\ not out[k] | k in 1..n];
  } in
  if n = 0 then true
  else
    all_different(next) /\
    forall (i in 1..n) (
      next[i] in 1..n /\
      (step[i] = 0 <-> out[i]) /\
      (step[i] = 1 <-> first[i])) /\
    if n <= 100 then
      forall (i, j in 1..n where i != j /\ j in dom(next[i])) (
        next[i] = j /\ not first[j] -> step[j] = step[i] + 1)
    else
      forall (i in 1..n) (
        let { var 0..n: after = step[next[i]] } in
        out[i] \/ after = 1 \/ after = step[i] + 1)
    endif
  endif;
