% Seven engineers, seven sites: each goes to one, for the least travel in all.
include "globals.mzn";

set of int: People = 1..7;
array[People, People] of int: travel =
  [| 14,  5,  8,  7, 15,  9, 11 |  2, 12,  6,  5,  3, 13,  8 |  7,  8,  3,  9,  7,  6, 12
   |  2,  4,  6, 10,  1,  9,  7 | 11,  7,  9,  4,  6,  2, 10 |  8, 13,  5,  6,  9, 12,  4
   |  5,  9, 11,  8, 10,  7,  3 |];

array[People] of var People: site;
var 0..200: all = sum (p in People) (travel[p, site[p]]);

constraint alldifferent(site);

solve minimize all;

output ["sites: \(site)\ntravel: \(all)\n"];
