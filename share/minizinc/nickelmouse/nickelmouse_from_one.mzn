% x, with the number before `first` taken away
function array[int] of var int: nickelmouse_from_one(array[int] of var int: x, int: first) =
  if first = 1 then array1d(x) else [v - (first - 1) | v in x] endif;
