include "nickelmouse_bins.mzn";

% Tasks, where each bin is filled by what its load is less than the greatest one: so no load is too small, and none is too large, since all
% together are all weights. And a sum for each bin, where these are short or something is negative.
predicate fzn_bin_packing_load(array[int] of var int: load, array[int] of var int: bin, array[int] of int: w) =
  let {
    array[int] of var int: b = array1d(bin);
    array[int] of int: weight = array1d(w);
    int: all = sum(weight);
    int: capacity = max([0] ++ [if has_bounds(v) then min(ub(v), all) else all endif | v in load]);
    bool: is_usual = length(load) > 0 /\ forall (v in weight) (v >= 0);
  } in
  forall (v in b) (v in index_set(load)) /\
  forall (v in load) (v in sum (i in weight) (min(i, 0))..sum (i in weight) (max(i, 0))) /\
  sum(load) = all /\
  if is_usual then nickelmouse_bins(capacity, b, weight, [k | k in index_set(load)], [capacity - v | v in load]) else true endif /\
  if not is_usual \/ nickelmouse_are_few_pairs(b) then
    forall (k in index_set(load)) (bool_lin_eq(nickelmouse_weights(b, weight, k), nickelmouse_are_in(b, weight, k), load[k]))
  else true endif;
