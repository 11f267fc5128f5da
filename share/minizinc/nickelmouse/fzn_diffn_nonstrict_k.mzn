include "fzn_diffn_nonstrict.mzn";
include "nickelmouse_shadow_k.mzn";

% As with diffn_k, but a box whose size is 0 along some side may lie anywhere.
predicate fzn_diffn_nonstrict_k(array[int,int] of var int: box_posn, array[int,int] of var int: box_size) =
  let {
    array[int] of int: boxes = [ i | i in index_set_1of2(box_posn) ];
    array[int] of int: sides = [ j | j in index_set_2of2(box_posn) ];
  } in
  if length(sides) = 2 then
    fzn_diffn_nonstrict([box_posn[i, sides[1]] | i in boxes], [box_posn[i, sides[2]] | i in boxes],
      [box_size[i, sides[1]] | i in boxes], [box_size[i, sides[2]] | i in boxes])
  else
    forall (i, k in boxes where i < k) (exists (j in sides) (
      box_size[i, j] = 0 \/ box_size[k, j] = 0 \/
      box_posn[i, j] + box_size[i, j] <= box_posn[k, j] \/ box_posn[k, j] + box_size[k, j] <= box_posn[i, j])) /\
    nickelmouse_shadow_k(box_posn, box_size)
  endif;
