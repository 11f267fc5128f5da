% Without orders. A capacity that is not yet fixed tells the solver's own from those above; it is fixed behind the call.
predicate nickelmouse_cumulative(array[int] of var int: s, array[int] of var int: d, array[int] of var int: r, int: b) =
  let { var b - 1..b: capacity } in
  fzn_cumulative(s, d, r, capacity) /\ capacity >= b;
