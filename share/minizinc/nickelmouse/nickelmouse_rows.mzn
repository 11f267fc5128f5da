include "nickelmouse_cumulative.mzn";
include "fzn_cumulative.mzn";

% The boxes have constant heights above 0, and the plane is small enough that each place of it has a number: row by row, from left to right.
test nickelmouse_have_rows(array[int] of var int: x, array[int] of var int: y, array[int] of var int: dx, array[int] of var int: dy) =
  forall (v in x ++ y ++ dx ++ dy) (has_bounds(v)) /\ forall (v in dx) (lb(v) > 0) /\ forall (v in dy) (is_fixed(v) /\ lb(v) > 0) /\
  sum (v in dy) (lb(v)) <= 20000 /\
  nickelmouse_width(x, dx) * (nickelmouse_width(y, dy) + 1) <= 100000000;

% how far the boxes may reach from the least place of all
function int: nickelmouse_width(array[int] of var int: x, array[int] of var int: dx) =
  max([ ub(x[i]) + ub(dx[i]) | i in index_set(x) ]) - lb_array(x);

% Each row of a box is a task of one machine, from the number of its first place on.
predicate nickelmouse_rows(array[int] of var int: x, array[int] of var int: y, array[int] of var int: dx, array[int] of var int: dy) =
  let {
    int: width = nickelmouse_width(x, dx);
    array[int] of var int: place = [ width * (y[i] - lb_array(y)) + x[i] - lb_array(x) | i in index_set(x) ];
  } in
  nickelmouse_cumulative(
    [place[i] + width * row | i in index_set(x), row in 0..fix(dy[i]) - 1],
    [dx[i] | i in index_set(x), row in 0..fix(dy[i]) - 1],
    [1 | i in index_set(x), row in 0..fix(dy[i]) - 1], 1);
