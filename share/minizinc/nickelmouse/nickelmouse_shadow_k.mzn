include "fzn_cumulative.mzn";

% What the boxes use of all other sides together, seen along each, where the other sizes are constants and the products are numbers of a file.
% Each side reaches from its least place to where the last box ends, so that a better bound of any side is one here.
predicate nickelmouse_shadow_k(array[int,int] of var int: position, array[int,int] of var int: size) =
  let { set of int: boxes = index_set_1of2(position); set of int: sides = index_set_2of2(position) } in
  if card(boxes) > 0 /\ forall (v in array1d(position) ++ array1d(size)) (has_bounds(v)) /\ lb_array(size) >= 0 then
    let {
      array[sides] of int: least = array1d(sides, [ min([ lb(position[i, j]) | i in boxes ]) | j in sides ]);
      array[sides] of int: extent = array1d(sides, [ max([ ub(position[i, j]) + ub(size[i, j]) | i in boxes ]) - least[j] | j in sides ]);
    } in
    forall (along in sides where forall (i in boxes, j in sides where j != along) (is_fixed(size[i, j]))) (
      let { array[int] of int: others = [ j | j in sides where j != along ] } in
      if length(others) = 0 \/ sum (j in others) (log2(max(1, extent[j]))) > 29.8 then true
      else
        let {
          var int: most = min([ product (l in others where l != j) (extent[l]) * (max([ position[i, j] + size[i, j] | i in boxes ]) - least[j])
                              | j in others ]);
        } in
        fzn_cumulative([position[i, along] | i in boxes], [size[i, along] | i in boxes],
          [product (j in others) (fix(size[i, j])) | i in boxes], most)
      endif)
  else true endif;
