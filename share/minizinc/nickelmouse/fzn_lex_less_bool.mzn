include "nickelmouse_lex.mzn";
predicate fzn_lex_less_bool(array[int] of var bool: x, array[int] of var bool: y) =
  nickelmouse_lex(array1d(x), array1d(y), length(x) < length(y));
