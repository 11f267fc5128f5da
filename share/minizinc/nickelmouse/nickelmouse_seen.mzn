% whether s is among the first k, from k = 0 on; in clauses, since the compiler would make one disjunction of all up to each
function array[int] of var bool: nickelmouse_seen(int: s, array[int] of var int: x) ::promise_total =
  let {
    int: n = length(x);
    array[0..n] of var bool: seen;
    constraint not seen[0];
    constraint forall (k in 1..n) (
      let { var bool: is_s = (x[k] = s) } in
      bool_clause([seen[k]], [seen[k - 1]]) /\
      bool_clause([seen[k]], [is_s]) /\
      bool_clause([seen[k - 1], is_s], [seen[k]]));
  } in seen;
