% Five breeders, two tanks.
sire(bo). sire(ox).
dam(ada). dam(eve). dam(una).

kin(bo,ada,250). kin(bo,una,31). kin(ox,eve,62). kin(ox,una,31).
close(125).
serves(bo,2). serves(ox,2).

tank(east,2). tank(west,1).
unfit(una,west).

prefer(bo,eve,3). prefer(ox,una,2). prefer(bo,una,1).
use(bo,1). use(ox,1).

home(bo,west). home(ox,east). home(ada,east). home(eve,west). home(una,east).
way(east,west,2). way(west,east,2).
