include "fzn_cumulative.mzn";

% One task after the other: tasks of one machine. A task of length 0 may stand anywhere. Up to 50 tasks, those whose length may be 0 have an
% order with each other one too.
predicate fzn_disjunctive(array[int] of var int: s, array[int] of var int: d) =
  let {
    array[int] of var int: start = array1d(s);
    array[int] of var int: length_of = array1d(d);
    array[int] of int: tasks = [ i | i in index_set(start) where ub(length_of[i]) > 0 ];
  } in
  forall (v in length_of) (v >= 0) /\
  if length(tasks) < 2 then true
  else
    fzn_cumulative([start[i] | i in tasks], [length_of[i] | i in tasks], [1 | i in tasks], 1) /\
    if length(tasks) > 50 then true
    else
      forall (i, j in tasks where i < j /\ not (lb(length_of[i]) > 0 /\ lb(length_of[j]) > 0)) (
        length_of[i] = 0 \/ length_of[j] = 0 \/
        start[i] + length_of[i] <= start[j] \/ start[j] + length_of[j] <= start[i])
    endif
  endif;
