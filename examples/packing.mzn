% Eighteen parcels into vans of 30: as few vans as can be.
include "globals.mzn";

array[1..18] of int: weight = [17, 16, 15, 14, 14, 13, 12, 11, 11, 10, 9, 9, 8, 7, 6, 5, 4, 3];
int: room = 30;
int: vans = 7;

array[index_set(weight)] of var 1..vans: van;
array[1..vans] of var 0..room: load;
var 1..vans: used;

constraint bin_packing_load(load, van, weight);
constraint forall (v in 1..vans) (load[v] > 0 <-> v <= used);
% a heavier parcel is packed first, and opens at most the next van
constraint forall (p in index_set(weight)) (van[p] <= p);
constraint decreasing(load);

solve minimize used;

output ["vans: \(van)\nloads: \(load)\nused: \(used)\n"];
