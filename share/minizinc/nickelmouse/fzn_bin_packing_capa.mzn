include "nickelmouse_bins.mzn";

% Tasks, where each bin is filled by what its capacity is less than the greatest one. Where something is negative, a sum for each bin.
predicate fzn_bin_packing_capa(array[int] of int: c, array[int] of var int: bin, array[int] of int: w) =
  let { array[int] of var int: b = array1d(bin); array[int] of int: weight = array1d(w) } in
  forall (v in b) (v in index_set(c)) /\
  if exists (v in array1d(c) ++ weight) (v < 0) then
    forall (k in index_set(c)) (bool_lin_le(nickelmouse_weights(b, weight, k), nickelmouse_are_in(b, weight, k), c[k]))
  else
    let {
      int: capacity = min(max([0] ++ array1d(c)), sum(weight));
      array[int] of int: lesser = [ k | k in index_set(c) where c[k] < capacity ];
    } in nickelmouse_bins(capacity, b, weight, lesser, [capacity - c[k] | k in lesser])
  endif;
