include "nickelmouse_lex.mzn";
predicate fzn_lex_lesseq_int(array[int] of var int: x, array[int] of var int: y) =
  nickelmouse_lex(array1d(x), array1d(y), length(x) <= length(y));
