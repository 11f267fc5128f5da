include "all_different.mzn";
include "increasing.mzn";

% y is x in order: each entry of x has a place in y. Up to 60 entries, equal ones keep their order.
predicate fzn_sort(array[int] of var int: x, array[int] of var int: y) =
  let {
    int: n = length(x);
    array[int] of var int: from = array1d(x);
    array[int] of var int: into = array1d(y);
    array[1..n] of var 1..n: place;
  } in
  forall (i in 1..n) (into[place[i]] = from[i]) /\
  all_different(place) /\ increasing(into) /\
  forall (i, j in 1..n where i < j /\ n <= 60) (place[i] < place[j] <-> from[i] <= from[j]);
