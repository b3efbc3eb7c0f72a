% Ten breeders, two tanks: brown trout of a river hatchery, three families.
sire(arne). sire(bror). sire(dag). sire(egil).
dam(frida). dam(greta). dam(hilda). dam(inga). dam(kari). dam(liv).

% Full sibs 250, half sibs 125, cousins 62, further 31.
kin(arne,frida,250). kin(arne,greta,125). kin(arne,hilda,31). kin(arne,kari,62).
kin(bror,greta,250). kin(bror,hilda,62).  kin(bror,inga,31).  kin(bror,liv,62).   kin(bror,frida,31).
kin(dag,hilda,125).  kin(dag,inga,62).    kin(dag,liv,62).    kin(dag,frida,31).  kin(dag,kari,31).
kin(egil,inga,125).  kin(egil,kari,62).   kin(egil,liv,31).   kin(egil,frida,62). kin(egil,greta,31). kin(egil,hilda,31).
close(125).
serves(arne,2). serves(bror,2). serves(dag,2). serves(egil,1).

tank(north,3). tank(south,3).
unfit(greta,south). unfit(liv,north). unfit(egil,north).

% Growth and late maturing: what the manager would like to see paired.
prefer(arne,inga,3). prefer(bror,frida,2). prefer(dag,greta,3). prefer(dag,liv,2). prefer(egil,hilda,2). prefer(bror,kari,1).
use(arne,2). use(bror,2). use(dag,2). use(egil,1).

home(arne,north). home(bror,north). home(dag,south). home(egil,south).
home(frida,north). home(greta,north). home(hilda,north). home(inga,south). home(kari,south). home(liv,north).
way(north,south,3). way(south,north,3).
