% The solver's own, with the rows one after the other. A place without bounds has those of its column.
predicate fzn_table_int(array[int] of var int: x, array[int] of int: t);
predicate fzn_table_int(array[int] of var int: x, array[int,int] of int: t) =
  let { set of int: rows = index_set_1of2(t); array[int] of int: columns = [c | c in index_set_2of2(t)] } in
  if length(x) = 0 then card(rows) > 0
  else
    forall (k in index_set(columns) where card(rows) > 0 /\ not has_bounds(array1d(x)[k])) (
      array1d(x)[k] in min([t[r, columns[k]] | r in rows])..max([t[r, columns[k]] | r in rows])) /\
    fzn_table_int(x, array1d(t))
  endif;
