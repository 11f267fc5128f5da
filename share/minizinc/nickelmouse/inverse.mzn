% In the place of MiniZinc's own: inverses over any index sets. The solver's own counts places from 1 on both sides.
include "nickelmouse_from_one.mzn";
include "fzn_inverse.mzn";
include "fzn_inverse_opt.mzn";
include "fzn_inverse_reif.mzn";

predicate inverse(array[$$X] of var $$Y: f, array[$$Y] of var $$X: g) =
  if length(f) != length(g) then false
  elseif length(f) = 0 then true
  else fzn_inverse(nickelmouse_from_one(array1d(f), min(index_set(g))), nickelmouse_from_one(array1d(g), min(index_set(f))))
  endif;

predicate inverse_reif(array[$$X] of var $$Y: f, array[$$Y] of var $$X: g, var bool: b) = fzn_inverse_reif(f, g, b);

predicate inverse(array[$$X] of var opt $$Y: f, array[$$Y] of var opt $$X: g) = fzn_inverse_opt(f, g);
