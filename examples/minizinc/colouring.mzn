% The fewest colours for the lands of a map, so that neighbours differ.
enum LAND = {Austria, Belgium, France, Germany, Italy, Luxembourg, Netherlands, Switzerland};
array[1..15, 1..2] of LAND: border =
  [| Austria, Germany | Austria, Italy | Austria, Switzerland | Belgium, France | Belgium, Germany | Belgium, Luxembourg
   | Belgium, Netherlands | France, Germany | France, Italy | France, Luxembourg | France, Switzerland | Germany, Luxembourg
   | Germany, Netherlands | Germany, Switzerland | Italy, Switzerland |];

array[LAND] of var 1..card(LAND): colour;
var 1..card(LAND): colours = max(colour);

constraint forall(row in 1..15) (colour[border[row, 1]] != colour[border[row, 2]]);

solve minimize colours;

output ["\(land): \(colour[land])\n" | land in LAND] ++ ["\(colours) colours\n"];
