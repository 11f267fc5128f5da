include "nickelmouse_two.mzn";

% Up to the first place where x and y differ they are equal, and there x is less. If they differ nowhere, `ending` says what holds. In
% clauses: the compiler would make one conjunction of all places up to each.
predicate nickelmouse_lex(array[int] of var int: x, array[int] of var int: y, bool: ending) =
  let { int: n = min(length(x), length(y)) } in
  if nickelmouse_are_two([x[k] | k in 1..n] ++ [y[k] | k in 1..n]) then
    nickelmouse_lex(nickelmouse_are_greater([x[k] | k in 1..n], [y[k] | k in 1..n]),
      nickelmouse_are_greater([y[k] | k in 1..n], [x[k] | k in 1..n]), ending)
  else
    let { array[0..n] of var bool: equal } in % the first k places are equal
    equal[0] /\
    forall (k in 1..n) (
      let { var bool: is_most = (x[k] <= y[k]); var bool: is_least = (y[k] <= x[k]) } in
      bool_clause([is_most], [equal[k - 1]]) /\
      bool_clause([equal[k]], [equal[k - 1], is_least]) /\
      bool_clause([equal[k - 1]], [equal[k]]) /\
      bool_clause([is_least], [equal[k]])) /\
    (ending \/ not equal[n])
  endif;

predicate nickelmouse_lex(array[int] of var bool: x, array[int] of var bool: y, bool: ending) =
  let {
    int: n = min(length(x), length(y));
    array[0..n] of var bool: equal; % the first k places are equal
  } in
  equal[0] /\
  forall (k in 1..n) (
    bool_clause([y[k]], [equal[k - 1], x[k]]) /\
    bool_clause([equal[k]], [equal[k - 1], x[k]]) /\
    bool_clause([equal[k], y[k]], [equal[k - 1]]) /\
    bool_clause([equal[k - 1]], [equal[k]]) /\
    bool_clause([x[k]], [y[k], equal[k]])) /\
  (ending \/ not equal[n]);
