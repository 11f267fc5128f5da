include "nickelmouse_counts.mzn";
include "nickelmouse_own.mzn";

% A Boolean for each value that may occur; where these are more than the pairs of places, one for each place: no place before has its value.
% Where either would be too many for a file, values are counted as with global_cardinality; where they are far apart, each place has the first
% one with its value.
predicate fzn_nvalue(var int: n, array[int] of var int: x) =
  let { array[int] of var int: y = array1d(x); int: k = length(x) } in
  if k = 0 then n = 0
  elseif nickelmouse_are_dense(y, max(1000, k * k)) /\ not nickelmouse_are_too_many(y) then
    nickelmouse_are_true([ exists (v in y where a in dom(v)) (v = a) | a in dom_array(y) ], n)
  elseif k * k <= 100000 \/ not forall (v in y) (has_bounds(v)) \/ ub_array(y) + k > 1000000000 then
    nickelmouse_are_true([ forall (j in 1..i - 1) (y[j] != y[i]) | i in 1..k ], n)
  elseif nickelmouse_are_dense(y, 10 * k) then nickelmouse_values_counted(n, y)
  else nickelmouse_values_first(n, y)
  endif;

% All values lie among so many.
test nickelmouse_are_dense(array[int] of var int: x, int: most) =
  forall (v in x) (has_bounds(v)) /\ ub_array(x) - lb_array(x) < most;

predicate nickelmouse_values_counted(var int: n, array[int] of var int: x) =
  let {
    array[int] of int: values = [ a | a in dom_array(x) ];
    array[int] of var int: counts = [ let { var 0..length(x): count } in count | a in values ];
  } in nickelmouse_counts(x, values, counts) /\ nickelmouse_are_true([ c >= 1 | c in counts ], n);

% Each place has the first one with its value. Those that are their own first one have different values.
predicate nickelmouse_values_first(var int: n, array[int] of var int: x) =
  let {
    set of int: places = index_set(x);
    array[places] of var places: first;
    array[places] of var bool: is_later = [ first[i] != i | i in places ];
  } in
  forall (i in places) (first[i] <= i /\ array_var_int_element(first[i], x, x[i])) /\
  nickelmouse_all_different_but(is_later, x) /\
  nickelmouse_are_true(is_later, length(x) - n);
