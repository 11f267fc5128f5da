include "nickelmouse_numbers.mzn";

% A power with a constant exponent: rows where the base has few values and the powers are no larger than a file may have, else a product.
predicate int_pow_fixed(var int: x, int: y, var int: z) =
  if y = 0 then z = 1
  elseif y = 1 then z = x
  elseif y < 0 then x != 0 /\ z in -1..1 /\ z = nickelmouse_negative_power(x, y)
  elseif nickelmouse_is_small(x) /\ nickelmouse_has_powers(x, y) then
    nickelmouse_function(x, z, [ nickelmouse_power(a, y) | a in dom(x) ])
  else
    let { var int: half = pow(x, y div 2) } in
    if y mod 2 = 0 then z = half * half else z = half * half * x endif
  endif;
