% Six breeders, two tanks, and six crosses that buyers have asked for: facts for mating.lp and sought.lp.
sire(kai). sire(leo).
dam(mia). dam(nel). dam(pia). dam(rut).

kin(kai,mia,62). kin(kai,rut,31). kin(kai,pia,31). kin(leo,mia,250). kin(leo,nel,31).
close(125).
serves(kai,2). serves(leo,2).

tank(pond,2). tank(race,2).
unfit(rut,pond).

% Kai has two dams at most, and nel one sire: not all of it can be had. Leo and mia are sibs.
sought(kai,mia,5). sought(kai,nel,4). sought(kai,rut,3). sought(leo,nel,2). sought(leo,rut,1). sought(leo,mia,6).

prefer(leo,pia,2). prefer(kai,rut,1).
use(kai,1). use(leo,1).

home(kai,pond). home(leo,race). home(mia,pond). home(nel,pond). home(pia,race). home(rut,race).
way(pond,race,2). way(race,pond,2).
