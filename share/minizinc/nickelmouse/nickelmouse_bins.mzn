include "fzn_cumulative.mzn";
include "fzn_all_different_int.mzn";
include "nickelmouse_cumulative.mzn";

% Items in bins, where no weight and no capacity is negative: each item of some weight is a task of length 1 that starts at its bin. What
% a bin has less than the greatest capacity is filled by a task of its own.
predicate nickelmouse_bins(int: capacity, array[int] of var int: bin, array[int] of int: w, array[int] of int: filled, array[int] of var int: filling) =
  let {
    array[int] of int: items = [ i | i in index_set(bin) where w[i] > 0 ];
    array[int] of int: large = [ i | i in items where 2 * w[i] > capacity ];
  } in
  if length(items) = 0 then true
  else
    nickelmouse_cumulative([bin[i] | i in items] ++ filled, [1 | i in items] ++ [1 | k in filled], [w[i] | i in items] ++ filling, capacity) /\
    if length(large) > 1 then fzn_all_different_int([bin[i] | i in large]) else true endif
  endif;

% the pairs of an item and a bin are few
test nickelmouse_are_few_pairs(array[int] of var int: bin) =
  forall (v in bin) (has_bounds(v)) /\ sum (v in bin) (card(dom(v))) <= 1000;

% what the items in a bin weigh: the weights, and of each whether it is there
function array[int] of int: nickelmouse_weights(array[int] of var int: bin, array[int] of int: w, int: k) =
  [ w[i] | i in index_set(bin) where w[i] != 0 /\ k in dom(bin[i]) ];
function array[int] of var bool: nickelmouse_are_in(array[int] of var int: bin, array[int] of int: w, int: k) =
  [ bin[i] = k | i in index_set(bin) where w[i] != 0 /\ k in dom(bin[i]) ];
