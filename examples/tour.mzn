% A tour through eleven towns, as short as can be.
include "globals.mzn";

set of int: Towns = 1..11;
array[Towns] of int: east  = [0, 8, 23, 31, 40, 36, 28, 15, 6, 19, 33];
array[Towns] of int: north = [12, 30, 35, 24, 12, 2, 8, 4, 19, 18, 33];
array[Towns, Towns] of int: far = array2d(Towns, Towns,
  [ round(sqrt(pow(int2float(east[a] - east[b]), 2.0) + pow(int2float(north[a] - north[b]), 2.0))) | a, b in Towns ]);

array[Towns] of var Towns: next;
var 0..1000: length = sum (a in Towns) (far[a, next[a]]);

constraint circuit(next);

solve minimize length;

output ["next: \(next)\nlength: \(length)\n"];
