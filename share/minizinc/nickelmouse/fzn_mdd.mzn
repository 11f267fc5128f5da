include "fzn_table_int.mzn";

% A table for each level: (node before, value, node after). Node 0 is the end.
predicate fzn_mdd(array[int] of var int: x, int: N, array[int] of int: level, int: E, array[int] of int: from,
    array[int] of set of int: label, array[int] of int: to) =
  let { int: n = length(x); array[int] of var int: y = array1d(x); array[1..n + 1] of var 0..N: node } in
  node[1] = 1 /\ node[n + 1] = 0 /\
  forall (k in 1..n) (
    fzn_table_int([node[k], y[k], node[k + 1]], [ [from[e], v, to[e]][c]
      | e in 1..E where level[from[e]] = k, v in label[e] intersect dom(y[k]), c in 1..3 ]));
