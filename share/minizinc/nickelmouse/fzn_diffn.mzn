include "nickelmouse_rows.mzn";
include "nickelmouse_shadow.mzn";

% Each two boxes have one beside or above the other; where the pairs would be too many for a file, the rows of all boxes are tasks. Along each
% side the boxes are tasks, and the other side is what they use.
predicate fzn_diffn(array[int] of var int: x, array[int] of var int: y, array[int] of var int: dx, array[int] of var int: dy) =
  let {
    array[int] of var int: x1 = array1d(x); array[int] of var int: y1 = array1d(y);
    array[int] of var int: dx1 = array1d(dx); array[int] of var int: dy1 = array1d(dy);
  } in
  if length(x1) > 150 /\ nickelmouse_have_rows(x1, y1, dx1, dy1) then nickelmouse_rows(x1, y1, dx1, dy1)
  elseif length(x1) > 150 /\ nickelmouse_have_rows(y1, x1, dy1, dx1) then nickelmouse_rows(y1, x1, dy1, dx1)
  else
    forall (i, j in index_set(x1) where i < j) (
      x1[i] + dx1[i] <= x1[j] \/ x1[j] + dx1[j] <= x1[i] \/ y1[i] + dy1[i] <= y1[j] \/ y1[j] + dy1[j] <= y1[i])
  endif /\
  nickelmouse_shadow(x1, dx1, y1, dy1) /\
  nickelmouse_shadow(y1, dy1, x1, dx1);
