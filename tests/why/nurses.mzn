% Three nurses and a week: who works on which day? The weekend has one nurse too few.
enum Nurse = { Ada, Ben, Cleo };
enum Day = { Mon, Tue, Wed, Thu, Fri, Sat, Sun };
array[Day] of int: wanted = [1, 1, 2, 1, 1, 2, 1];
array[Nurse, Day] of var bool: works;

% as many nurses as the day wants
constraint forall (d in Day) (sum (n in Nurse) (works[n, d]) >= wanted[d]);

% nobody works on three days in a row
constraint forall (n in Nurse, d in Mon..Fri) (
  works[n, d] + works[n, enum_next(Day, d)] + works[n, enum_next(Day, enum_next(Day, d))] <= 2);

% nobody works on both days of the weekend
constraint forall (n in Nurse) (not (works[n, Sat] /\ works[n, Sun]));

% Ada is away from Friday on
constraint forall (d in Fri..Sun) (not works[Ada, d]);

% everybody works on two days at least, and Ben not on Monday
constraint forall (n in Nurse) (sum (d in Day) (works[n, d]) >= 2);
constraint not works[Ben, Mon];

solve satisfy;
