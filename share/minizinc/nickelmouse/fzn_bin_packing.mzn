include "nickelmouse_bins.mzn";

% Tasks. Where something is negative, a sum for each bin.
predicate fzn_bin_packing(int: c, array[int] of var int: bin, array[int] of int: w) =
  let { array[int] of var int: b = array1d(bin); array[int] of int: weight = array1d(w) } in
  if c < 0 \/ exists (v in weight) (v < 0) then
    forall (k in lb_array(b)..ub_array(b)) (bool_lin_le(nickelmouse_weights(b, weight, k), nickelmouse_are_in(b, weight, k), c))
  elseif sum(weight) <= c then true
  else nickelmouse_bins(c, b, weight, [], [])
  endif;
