% Which things to take, so that they weigh 40 at most together and are worth as much as they can be.
int: capacity = 40;
enum THING = {tent, stove, rope, lamp, boots, map, camera, blanket};
array[THING] of int: weight = [14, 6, 7, 3, 9, 1, 5, 8];
array[THING] of int: worth = [30, 12, 11, 8, 15, 5, 9, 13];

array[THING] of var 0..1: take;
var 0..sum(worth): total = sum(i in THING) (worth[i] * take[i]);

constraint sum(i in THING) (weight[i] * take[i]) <= capacity;

solve maximize total;

output ["take \({i | i in THING where fix(take[i]) = 1}), worth \(total)\n"];
