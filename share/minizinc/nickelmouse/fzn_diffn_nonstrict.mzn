include "nickelmouse_rows.mzn";
include "nickelmouse_shadow.mzn";

% As with diffn, but a box without breadth or height may lie anywhere.
predicate fzn_diffn_nonstrict(array[int] of var int: x, array[int] of var int: y, array[int] of var int: dx, array[int] of var int: dy) =
  let {
    array[int] of var int: all_dx = array1d(dx); array[int] of var int: all_dy = array1d(dy);
    array[int] of int: boxes = [ i | i in index_set(all_dx) where not (nickelmouse_is_zero(all_dx[i]) \/ nickelmouse_is_zero(all_dy[i])) ];
    array[int] of var int: x1 = [array1d(x)[i] | i in boxes]; array[int] of var int: y1 = [array1d(y)[i] | i in boxes];
    array[int] of var int: dx1 = [all_dx[i] | i in boxes]; array[int] of var int: dy1 = [all_dy[i] | i in boxes];
  } in
  if length(x1) > 150 /\ nickelmouse_have_rows(x1, y1, dx1, dy1) then nickelmouse_rows(x1, y1, dx1, dy1)
  elseif length(x1) > 150 /\ nickelmouse_have_rows(y1, x1, dy1, dx1) then nickelmouse_rows(y1, x1, dy1, dx1)
  else
    forall (i, j in index_set(x1) where i < j) (
      dx1[i] = 0 \/ dx1[j] = 0 \/ dy1[i] = 0 \/ dy1[j] = 0 \/
      x1[i] + dx1[i] <= x1[j] \/ x1[j] + dx1[j] <= x1[i] \/ y1[i] + dy1[i] <= y1[j] \/ y1[j] + dy1[j] <= y1[i])
  endif /\
  nickelmouse_shadow(x1, dx1, y1, dy1) /\
  nickelmouse_shadow(y1, dy1, x1, dx1);

test nickelmouse_is_zero(var int: v) = is_fixed(v) /\ fix(v) = 0;
