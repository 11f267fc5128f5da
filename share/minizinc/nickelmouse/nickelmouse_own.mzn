include "fzn_all_different_int.mzn";

% The places where this is false have different values. Each other place has a number of its own above all values. The numbers are of one range,
% since a file lists each value of a set that is none.
predicate nickelmouse_all_different_but(array[int] of var bool: is_other, array[int] of var int: x) =
  let {
    int: above = ub_array(x);
    array[int] of var int: own = [ let { var lb(x[i])..above + i: v } in v | i in index_set(x) ];
  } in
  fzn_all_different_int(own) /\
  forall (i in index_set(x)) (
    (is_other[i] <-> own[i] = above + i) /\
    bool_clause([is_other[i], own[i] = x[i]], []));
