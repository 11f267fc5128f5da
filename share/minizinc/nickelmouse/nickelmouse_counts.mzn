include "fzn_cumulative.mzn";
include "nickelmouse_cumulative.mzn";

% of each that may have the value k whether it has
function array[int] of var bool: nickelmouse_are_at(array[int] of var int: x, int: k) = [ v = k | v in x where k in dom(v) ];

% The Booleans that say of each whether it has a value are too many for a file.
test nickelmouse_are_too_many(array[int] of var int: x) =
  forall (v in x) (has_bounds(v)) /\ sum (v in x) (card(dom(v))) > 50000;

% So many are true, as a sum of Booleans: each has no number beside it.
predicate nickelmouse_are_true(array[int] of var bool: are, var int: count) =
  count in 0..length(are) /\ bool_lin_eq([1 | b in are], are, count);

% The sums of these values, each of them another one, would be too long for a file.
test nickelmouse_are_long_sums(array[int] of var int: x, array[int] of int: cover) =
  card(array2set(cover)) = length(cover) /\
  forall (v in x) (has_bounds(v)) /\
  sum (v in x) (card(dom(v) intersect array2set(cover))) > 50000;

% At most so many have each value of the cover, without a Boolean for each that may have it: values are times. Each place is a task of length 1,
% and each value is filled by what it has less than the most.
predicate nickelmouse_at_most(array[int] of var int: x, array[int] of int: cover, array[int] of var int: most) =
  let { int: all = length(x); array[int] of int: filled = [ k | k in index_set(cover) where lb(most[k]) < all ] } in
  nickelmouse_cumulative(x ++ [cover[k] | k in filled], [1 | v in x] ++ [1 | k in filled], [1 | v in x] ++ [all - most[k] | k in filled], all);

% So many have each value of the cover: none has more, and all together are as many as the places with a value of the cover.
predicate nickelmouse_counts(array[int] of var int: x, array[int] of int: cover, array[int] of var int: counts) =
  let {
    set of int: values = array2set(cover);
    array[int] of var bool: are_in = [ v in values | v in x where not (dom(v) subset values) ];
    int: always = length(x) - length(are_in);
  } in
  forall (c in counts) (c in 0..length(x)) /\
  nickelmouse_at_most(x, cover, counts) /\
  sum(counts) = always + sum (b in are_in) (bool2int(b));
