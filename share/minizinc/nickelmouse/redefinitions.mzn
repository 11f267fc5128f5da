% What the compiler may ask of a solver and this one does not have, said in what it has.
include "nosets.mzn"; % made by ./install: a set that is to be found becomes one Boolean for each of its possible members
include "fzn_table_int.mzn";
include "nickelmouse_numbers.mzn";

predicate bool_xor(var bool: a, var bool: b) = bool_not(a, b);

% The powers that are asked for, as rows; where the base has many values, one of the powers with a constant exponent.
predicate int_pow(var int: x, var int: y, var int: z) =
  if is_fixed(y) then int_pow_fixed(x, fix(y), z)
  else
    assert(has_bounds(y) /\ nickelmouse_has_powers(x, ub(y)),
      "a power with a variable exponent has to be between -1000000000 and 1000000000",
      if nickelmouse_is_small(x) then
        z in { nickelmouse_power(a, b) | a in dom(x), b in dom(y) where a != 0 \/ b >= 0 } /\
        fzn_table_int([x, y, z], [ [a, b, nickelmouse_power(a, b)][k]
          | a in dom(x), b in dom(y) where a != 0 \/ b >= 0, k in 1..3 ])
      else
        (y >= 0 \/ x != 0) /\
        z = [ if b < 0 then nickelmouse_negative_power(x, b) else pow(x, b) endif | b in lb(y)..ub(y) ][y - lb(y) + 1]
      endif)
  endif;

% Division: rows where the divisor is constant and there are few, else a sum with a product, which narrows bounds.
predicate int_div(var int: x, var int: y, var int: z) =
  if is_fixed(y) /\ nickelmouse_is_small(x) then
    fix(y) != 0 /\ nickelmouse_function(x, z, [ if fix(y) = 0 then 0 else a div fix(y) endif | a in dom(x) ])
  else
    let { var nickelmouse_rests(x, y): rest } in nickelmouse_divides(x, y, z, rest)
  endif;

predicate int_mod(var int: x, var int: y, var int: z) =
  if is_fixed(y) /\ nickelmouse_is_small(x) then
    fix(y) != 0 /\ nickelmouse_function(x, z, [ if fix(y) = 0 then 0 else a mod fix(y) endif | a in dom(x) ])
  else
    let { var nickelmouse_quotients(x, y): quotient } in nickelmouse_divides(x, y, quotient, z)
  endif;

% The products of both halves have bounds before the whole has.
function var int: product(array[int] of var int: x) = nickelmouse_product(array1d(x));
function var int: product(array[int,int] of var int: x) = nickelmouse_product(array1d(x));
function var int: nickelmouse_product(array[int] of var int: x) =
  let { int: n = length(x) } in
  if n = 0 then 1
  elseif n = 1 then x[1]
  else nickelmouse_product([x[i] | i in 1..n div 2]) * nickelmouse_product([x[i] | i in n div 2 + 1..n])
  endif;
