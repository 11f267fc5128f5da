% An entry of a table of constants with two indexes: its rows, which keep both indexes and the entry together. Else the entry is looked up
% in the list of all rows.
predicate array_var_int_element2d_nonshifted(var int: i, var int: j, array[int,int] of var int: x, var int: c) =
  let { set of int: rows = dom(i) intersect index_set_1of2(x); set of int: columns = dom(j) intersect index_set_2of2(x) } in
  if is_fixed(x) /\ card(rows) * card(columns) <= 1000 then
    fzn_table_int([i, j, c], [ [a, b, fix(x[a, b])][k] | a in rows, b in columns, k in 1..3 ])
  else
    array_var_int_element(nickelmouse_place(i, j, index_set_1of2(x), index_set_2of2(x)), array1d(x), c)
  endif;

predicate array_var_bool_element2d_nonshifted(var int: i, var int: j, array[int,int] of var bool: x, var bool: c) =
  array_var_bool_element(nickelmouse_place(i, j, index_set_1of2(x), index_set_2of2(x)), array1d(x), c);

predicate array_var_set_element2d_nonshifted(var int: i, var int: j, array[int,int] of var set of int: x, var set of int: c) =
  array_var_set_element(nickelmouse_place(i, j, index_set_1of2(x), index_set_2of2(x)), array1d(x), c);

% where the entry stands in the list, counted from 1
function var int: nickelmouse_place(var int: i, var int: j, set of int: rows, set of int: columns) =
  ((i - min(rows)) * card(columns) + j - min(columns) + 1) :: domain;
