% In the place of MiniZinc's own: a circuit over any index set. The solver's own counts places from 1.
include "nickelmouse_from_one.mzn";
include "fzn_circuit.mzn";
include "fzn_circuit_reif.mzn";
include "fzn_inverse.mzn";

% Up to 100 places, each has its predecessor too, and clauses may speak of it.
predicate circuit(array[$$E] of var $$E: x) =
  let { int: n = length(x); array[int] of var int: next = nickelmouse_from_one(array1d(x), min(index_set(x))) } in
  if n = 0 then true
  elseif not (n in 4..100) then fzn_circuit(next)
  else
    let { array[1..n] of var 1..n: previous } in
    fzn_circuit(next) /\ fzn_inverse(next, previous)
  endif;

predicate circuit_reif(array[$$E] of var $$E: x, var bool: b) =
  fzn_circuit_reif(nickelmouse_from_one(array1d(x), min(index_set(x))), b);
