% Two tasks that never run together, each of them longer than 0, have a Boolean for their order: true where the first comes first.
predicate nickelmouse_order(var int: s1, var int: d1, var int: s2, var int: d2) =
  let { var bool: is_first = (s1 + d1 <= s2) } in is_first \/ s2 + d2 <= s1;

% two tasks of one resource never run together
test nickelmouse_clash(var int: d1, var int: r1, var int: d2, var int: r2, int: b) = lb(d1) > 0 /\ lb(d2) > 0 /\ lb(r1) + lb(r2) > b;

% the bounds of two tasks overlap, so that their order is not known from these
test nickelmouse_overlap(var int: s1, var int: d1, var int: s2, var int: d2) =
  if has_bounds(s1) /\ has_bounds(d1) /\ has_bounds(s2) /\ has_bounds(d2) then
    ub(s1) + ub(d1) > lb(s2) /\ ub(s2) + ub(d2) > lb(s1)
  else true endif;

% the orders of the tasks of one resource, up to 200 tasks and 1,225 pairs, as 50 tasks of a machine have; none where the bounds tell it
predicate nickelmouse_orders(array[int] of var int: s, array[int] of var int: d, array[int] of var int: r, int: b) =
  if length(s) > 200 then true
  elseif sum (i, j in index_set(s) where i < j /\ nickelmouse_clash(d[i], r[i], d[j], r[j], b)) (1) > 1225 then true
  else
    forall (i, j in index_set(s) where i < j /\ nickelmouse_clash(d[i], r[i], d[j], r[j], b) /\ nickelmouse_overlap(s[i], d[i], s[j], d[j])) (
      nickelmouse_order(s[i], d[i], s[j], d[j]))
  endif;
