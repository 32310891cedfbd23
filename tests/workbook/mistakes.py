"""Mistakes that files and results give away, each in one of the right inventories.

A mistake is the inventory, the edits of its rows, the row at which it is to be told, by how that begins, and
words of its cause. The edits are:

    NAME@YEAR=VALUE, NAME@YEAR*TIMES, NAME*TIMES    other figures of an activity
    NAME:VALUE                                      another figure of a factor, in the same unit
    ~TEXT~OTHER                                     another text in all rows
    -ROW                                            without the rows that begin so
    copy YEAR OTHER                                 the activities of a year once more as those of another
    split NAME YEAR PART OTHER                      activities that are two parts of one, from a year on
    ++                                              a new file
    +ROW                                            a further row, in the notation of the inventories
"""
import re
import typing

from tests.workbook.inventories import RIGHT, digits, files_of, rows_of

NO_SLUDGE = "~EFFLUENT,NS,,key,NO~EFFLUENT,NS,,factor,SLUDGE.N"
BEFORE = "-enter,line,3B3,STOCK.BEFORE", "-enter,bind,STOCK.BEFORE", "-enter,activity,,STOCK.FIRST"
NEW = [f"+enter,activity,,{name},2021,{value},,,kt," for name, value in
       (("CEMENT", 2801), ("CLINKER.IN", 133), ("LIME", 312), ("GLASS", 216), ("CARBONATES", 48))]


OTHER_SIGN = tuple(f"LIGNITE.SC@{2010 + at}={change}" for at, change in enumerate(
    (-1500, 1900, -2600, 1700, -1900, 1600, -2100, 2500, -1700, -1400, 1500)))


class Mistake(typing.NamedTuple):
    """A mistake in an inventory, where it is to be told, and words of its cause."""
    inventory: str
    edits: tuple[str, ...]
    place: str
    words: tuple[str, ...]


MISTAKES = [Mistake(*fields) for fields in (
    # emissions and stocks below zero
    ("kilns", ("CLINKER.IN*25",), "enter,line,2A1,CEMENT.CO2", ("below zero", "IM")),
    ("acids", ("UREA.CO2@2014=2100",), "enter,line,2B1,AMMONIA.CO2", ("below zero", "R")),
    ("landfill", ("RECOVERED*20",), "enter,line,4A,LANDFILL.CH4", ("below zero", "R")),
    ("landfill", ("~STOCK.2009,2010,-610~STOCK.2009,2010,610",), "enter,line,4A,STOCK,", ("below zero",)),
    ("sewage", (NO_SLUDGE, "+f SLUDGE.N kt 90"), "enter,line,4D1,EFFLUENT", ("below zero", "NS")),
    ("sewage", ("~SEWAGE.CH4,S,,key,NO~SEWAGE.CH4,S,,factor,SLUDGE", "+f SLUDGE kt 400"),
     "enter,line,4D1,SEWAGE.CH4", ("below zero", "S, ")),
    ("landfill", ("~HEAPS.CH4,R,,key,NO~HEAPS.CH4,R,,factor,BURNT", "+f BURNT Gg-gas 3"),
     "enter,line,4B,HEAPS.CH4", ("below zero", "R")),
    ("power", ("GAS.CO2:-56.1",), "enter,factor,,GAS.CO2", ("natural gas",)),
    # NE between figures
    ("power", ("GAS.TJ@2015=NE",), "enter,activity,,GAS.TJ,2015", ("NE in 2015", "between")),
    ("dairy", ("COWS.INTAKE@2013=NE",), "enter,activity,,COWS.INTAKE,2013", ("NE in 2013", "between")),
    ("forest", ("LOGS@2012=NE", "LOGS@2013=NE"), "enter,activity,,LOGS,2012", ("NE in 2012 to 2013",)),
    ("soils", ("+enter,factor,,EF1,2014,NE,,,kg/kg,", "+enter,factor,,EF1,2016,0.01,,,kg/kg,"),
     "enter,factor,,EF1,2014", ("NE in 2014 to 2015",)),
    ("kilns", ("CLINKER.IN@2011=NE",), "enter,activity,,CLINKER.IN,2011", ("NE in 2011", "CEMENT.CO2")),
    ("sewage", ("PEOPLE@2016=NE",), "enter,activity,,PEOPLE,2016", ("NE in 2016",)),
    # potentials
    ("metals", ("GWP.CF4:7390",), "enter,factor,,GWP.CF4", ("Fourth",)),
    ("power", ("GWP.CH4:25",), "enter,factor,,GWP.CH4", ("Fourth",)),
    ("soils", ("GWP.CH4:265", "GWP.N2O:28"), "enter,factor,,GWP.CH4", ("swapped",)),
    ("dairy", ("GWP.CH4:84", "GWP.N2O:264", "GWP.CF4:4880", "GWP.C2F6:8210"), "enter,factor,,GWP.CH4",
     ("over 20 years",)),
    ("landfill", ("+enter,factor,,GWP.CH4,2015,25,,,1,",), "enter,factor,,GWP.CH4,2015", ("changes",)),
    ("acids", ("GWP.N2O:310",), "enter,factor,,GWP.N2O", ("Second",)),
    ("fields", ("GWP.N2O:2650",), "enter,factor,,GWP.N2O", ("no report",)),
    ("road", ("GWP.CO2:1000",), "enter,factor,,GWP.CO2", ("it is 1",)),
    ("metals", ("GWP.CF4:11100", "GWP.C2F6:6630"), "enter,factor,,GWP.CF4", ("swapped",)),
    ("sewage", ("GWP.CH4:29.8", "GWP.N2O:310"), "enter,factor,,GWP.N2O", ("Second",)),
    ("power", ("+enter,factor,,GWP.N2O,2018,298,,,1,",), "enter,factor,,GWP.N2O,2018", ("changes",)),
    # lines that no line takes
    ("forest", ("~FOREST.CHANGE,L,,line,LOSSES~FOREST.CHANGE,L,,line,LOGS",), "enter,line,3B1,LOSSES",
     ("no line takes it",)),
    ("dairy", ("~SLURRY.CONV SOLID.CONV FIELD.CONV~SLURRY.CONV SOLID.CONV",), "enter,line,3A2,FIELD.CONV",
     ("no line takes it",)),
    ("sewage", ("~TOWN.PLANT TOWN.RIVER FARM.SEPTIC~TOWN.PLANT TOWN.RIVER",), "enter,line,4D1,FARM.SEPTIC",
     ("no line takes it",)),
    ("soils", ("~,FON,,line,ORGANIC.N~,FON,,key,NO",), "enter,line,3C4,ORGANIC.N", ("no line takes it",)),
    ("homes", ("-enter,line,1A4b,LPG.CO2", "-enter,bind,LPG.CO2"), "enter,line,1A4b,LPG.TJ",
     ("no line takes it",)),
    ("balance", ("-enter,line,RA,DIESEL.RA", "-enter,bind,DIESEL.RA"), "enter,line,RA,DIESEL.USE",
     ("no line takes it",)),
    ("manure", ("~PIGS.PIT.NH3 PIGS.HEAP.NH3~PIGS.PIT.NH3",), "enter,line,3C6,PIGS.HEAP.NH3",
     ("no line takes it",)),
    # quantities that two lines take
    ("power", ("+line 1A2 MILLS.CO2 Q10 FC=l:COAL.TJ EF=f:COAL.CO2",),
     "enter,line,1A2,MILLS.CO2", ("twice",)),
    ("power", ("+line 1A5 ALL.TJ Q22 PR=a:GAS.TJ IM=k:NO EX=k:NO IB=k:NO SC=k:NO",
               "+line 1A5 ALL.CO2 Q10 FC=l:ALL.TJ EF=f:GAS.CO2"), "enter,line,1A5,ALL.CO2", ("twice",)),
    ("kilns", ("+line 2A1 CLINKER.CO2 Q32 MCL=l:CLINKER EF=f:CLINKER.EF CF=f:KILN.DUST",),
     "enter,line,2A1,CLINKER.CO2", ("twice",)),
    ("forest", ("+line 3B1 GROWTH.CO2 Q84 C=l:GROWTH",), "enter,line,3B1,GROWTH.CO2", ("twice",)),
    ("sewage", ("+line 4D1 TOWNS.CH4 Q100 X=s:TOWN.PLANT+TOWN.RIVER+FARM.SEPTIC TOW=l:LOAD S=k:NO R=k:NO",),
     "enter,line,4D1,TOWNS.CH4", ("twice",)),
    ("soils", ("+line 3C4 DUNG.N2O Q69 FSN=k:NO FON=l:ORGANIC.N FCR=k:NO FSOM=k:NO EF1=f:EF1",),
     "enter,line,3C4,DUNG.N2O", ("twice",)),
    ("uses", ("+line 1A2 GREASE.BURNT Q10 FC=a:LUBRICANTS EF=f:GREASE.EF", "+f GREASE.EF kg/TJ 73300"),
     "enter,line,1A2,GREASE.BURNT", ("twice",)),
    ("manure", ("+line 3A2 CELLAR.N2O Q59 N=a:PIGS NEX=l:PIGS.NEX MS=f:PIT.SHARE EF3=f:PIT.EF3",),
     "enter,line,3A2,CELLAR.N2O", ("twice",)),
    ("forest", ("~FOREST.CHANGE,L,,line,LOSSES~FOREST.CHANGE,L,,sum,LOSSES STORMS",),
     "enter,bind,FOREST.CHANGE,L", ("STORMS twice",)),
    # shares above one
    ("manure", ("HEAP.SHARE:38",), "enter,factor,,HEAP.SHARE", ("shares", "1.2 ")),
    ("dairy", ("FIELD.SHARE:35",), "enter,factor,,FIELD.SHARE", ("shares", "1.15 ")),
    ("sewage", ("TOWN.RIVER:22",), "enter,factor,,TOWN.RIVER", ("shares", "1.1 ")),
    ("sewage", ("FARM:37",), "enter,factor,,FARM", ("shares", "1.1 ")),
    ("manure", ("+enter,factor,,PIT.SHARE,2016,92,,,pct,",), "enter,factor,,PIT.SHARE,2016",
     ("shares", "2016 to 2020")),
    ("dairy", ("SLURRY.SHARE:70",), "enter,factor,,FIELD.SHARE", ("SLURRY.SHARE", "1.2 ")),
    ("manure", ("+line 3C4 PIGS.FIELD Q64 N=a:PIGS NEX=l:PIGS.NEX MS=f:FIELD.SHARE", "+f FIELD.SHARE pct 15",
                "+line 3C4 PIGS.FIELD.N2O Q71 FP=l:PIGS.FIELD EF3=f:FIELD.EF3", "+f FIELD.EF3 kg/kg 0.02"),
     "enter,factor,,FIELD.SHARE", ("shares", "1.15 ")),
    # a year that was copied
    ("kilns", ("copy 2016 2017",), "enter,activity,,CEMENT,2017", ("figures of 2016",)),
    ("soils", ("copy 2013 2014",), "enter,activity,,FERTILISER.N,2014", ("figures of 2013",)),
    ("cycle", ("copy 2021 2022",), "enter,activity,,MILLS.GAS,2022", ("figures of 2021",)),
    ("metals", ("copy 2019 2020",), "enter,activity,,BOF.STEEL,2020", ("figures of 2019",)),
    ("dairy", ("copy 2011 2012",), "enter,activity,,COWS,2012", ("figures of 2011",)),
    # the reference approach
    ("balance", ("COAL.BURNT*1.3",), "enter,line,RA,COAL.RA", ("reference approach", "sectoral")),
    ("balance", ("-enter,line,RA,GAS", "-enter,bind,GAS.USE", "-enter,bind,GAS.RA"), "enter,line,RA,COAL.RA",
     ("reference approach", "gas")),
    ("balance", ("COAL.MINED@2015*1.2",), "enter,line,RA,COAL.RA", ("reference approach", "2015")),
    ("balance", ("~USE,IM,,activity,COAL.IN~USE,IM,,activity,COAL.X", "~USE,EX,,activity,COAL.OUT~"
                 "USE,EX,,activity,COAL.IN", "~COAL.X~COAL.OUT"), "enter,line,RA,COAL.RA",
     ("reference approach",)),
    # changes from one year to the next
    ("kilns", ("LIME@2014*1.45",), "enter,activity,,LIME,2014", ("changes by", "LIME")),
    ("forest", ("FOREST@2015*0.6",), "enter,activity,,FOREST,2015", ("changes by", "FOREST")),
    ("dairy", ("SHEEP@2018*2.6",), "enter,activity,,SHEEP,2018", ("changes by", "SHEEP")),
    ("sewage", ("PEOPLE@2013*0.7",), "enter,activity,,PEOPLE,2013", ("changes by", "PEOPLE")),
    ("road", ("DIESEL@2016*1.3",), "enter,activity,,DIESEL,2016", ("changes by", "DIESEL")),
    ("landfill", ("COMPOST@2017*3",), "enter,activity,,COMPOST,2017", ("changes by", "COMPOST")),
    ("burners", ("PLASTIC@2012*0.5",), "enter,activity,,PLASTIC,2012", ("changes by", "PLASTIC")),
    # factors that are off by a known ratio, or out of range
    ("power", ("GAS.CO2:15.3",), "enter,factor,,GAS.CO2", ("44/12", "carbon")),
    ("power", ("COAL.CO2:25.8",), "enter,factor,,COAL.CO2", ("44/12", "carbon")),
    ("balance", ("COAL.C:94.6",), "enter,factor,,COAL.C,", ("12/44", "CO2")),
    ("road", ("PETROL.CO2:69.3",), "enter,factor,,PETROL.CO2", ("1000",)),
    ("homes", ("GAS.CO2:50310",), "enter,factor,,GAS.CO2", ("gross",)),
    ("soils", ("EF1:0.0157",), "enter,factor,,EF1", ("44/28",)),
    ("soils", ("EF5:0.0118",), "enter,factor,,EF5", ("44/28",)),
    ("fields", ("UREA.C:0.733",), "enter,factor,,UREA.C", ("44/12",)),
    ("fields", ("LIMESTONE.C:0.44",), "enter,factor,,LIMESTONE.C", ("44/12",)),
    ("kilns", ("CLINKER.EF:0.142",), "enter,factor,,CLINKER.EF", ("44/12",)),
    ("homes", ("LPG.NCV:1.13",), "enter,factor,,LPG.NCV", ("41.868",)),
    ("power", ("GAS.CO2:202",), "enter,factor,,GAS.CO2", ("3.6",)),
    ("metals", ("SLOPE:143",), "enter,factor,,SLOPE", ("1000",)),
    ("sewage", ("EFFLUENT.EF:0.00786",), "enter,factor,,EFFLUENT.EF", ("44/28",)),
    ("soils", ("~EF2,2010,8,,,kg/ha~EF2,2010,8,,,t/ha",), "enter,factor,,EF2", ("1000",)),
    ("fields", ("~STUBBLE.N2O,2010,0.07,,,g/kg~STUBBLE.N2O,2010,0.07,,,1",), "enter,factor,,STUBBLE.N2O",
     ("1000",)),
    ("dairy", ("CATTLE.EF:5.7",), "enter,factor,,CATTLE.EF", ("cattle",)),
    ("dairy", ("SHEEP.EF:57",), "enter,factor,,SHEEP.EF", ("sheep",)),
    ("dairy", ("COWS.YM:65",), "enter,factor,,COWS.YM", ("YM",)),
    ("homes", ("STOVES.CH4:112000",), "enter,factor,,STOVES.CH4", ("CO2",)),
    ("manure", ("PIT.EF3:0.00314",), "enter,factor,,PIT.EF3", ("44/28",)),
    ("power", ("+enter,factor,,GAS.CO2,2016,76.1,,,t/TJ,",), "enter,factor,,GAS.CO2,2016", ("natural gas",)),
    ("dairy", ("+enter,factor,,CATTLE.EF,2015,75,,,kg/head,",), "enter,factor,,CATTLE.EF,2015", ("jumps",)),
    ("power", ("GAS.TJ@2014*3.6",), "enter,activity,,GAS.TJ,2014", ("3.6",)),
    ("homes", ("PEAT@2016*0.02388",), "enter,activity,,PEAT,2016", ("41.868",)),
    ("balance", ("GAS.IN@2013*3.6",), "enter,activity,,GAS.IN,2013", ("3.6",)),
    # bunkers and biomass
    ("road", ("~line,MB,BUNKERS~line,1A3a,BUNKERS",), "enter,line,1A3a,BUNKERS.CO2", ("bunkers",)),
    ("road", ("~FC,,activity,JET.DOMESTIC~FC,,activity,JET.BUNKERS",), "enter,line,1A3a,FLIGHTS.CO2",
     ("at MB",)),
    ("homes", ("~line,MC,FIREWOOD~line,1A4b,FIREWOOD",), "enter,line,1A4b,FIREWOOD.CO2", ("biomass",)),
    ("burners", ("~line,MC,BIOGAS~line,1A1a,BIOGAS",), "enter,line,1A1a,BIOGAS.CO2", ("biomass",)),
    ("homes", ("~line,1A4a,PEAT~line,MC,PEAT",), "enter,line,MC,PEAT.CO2", ("fossil",)),
    ("homes", ("~line,1A4b,STOVES.CH4~line,MC,STOVES.CH4",), "enter,line,MC,STOVES.CH4", ("gives CH4",)),
    ("homes", ("~FIREWOOD~DRVA", "~WOOD.CO2~DRVA.EF", "~line,MC,DRVA~line,1A4b,DRVA"),
     "enter,line,1A4b,DRVA.CO2", ("biomass",)),
    # the first year of a stock
    ("meadows", ("~CHANGE,L,,line,STOCK.BEFORE~CHANGE,L,,prev,STOCK", *BEFORE), "enter,bind,CHANGE,L",
     ("whole stock",)),
    ("meadows", ("STOCK.FIRST*0",), "enter,bind,STOCK.BEFORE,G", ("whole stock",)),
    # the cycle of a year
    ("cycle",
     ("+correct,activity,,EWES,2019,300100,,,head,", "++", "+correct,activity,,EWES,2019,302000,,,head,"),
     "correct,activity,,EWES,2019,302000", ("corrected twice",)),
    ("cycle",
     ("+correct,activity,,WORKS.COAL,2018,2300,,,TJ,", "+correct,activity,,WORKS.COAL,2018,2310,,,TJ,"),
     "correct,activity,,WORKS.COAL,2018,2310", ("corrected twice",)),
    ("cycle", ("+correct,activity,,FIRES,2019,715,,,ha,",), "correct,activity,,FIRES,2019", ("bounds",)),
    ("cycle", ("+correct,factor,,OIL.EF,2010,77400,,,kg/TJ,",),
     "correct,factor,,OIL.EF", ("changes nothing",)),
    ("cycle", ("+correct,uncert,,MILLS.CO2,,2,3,,,",), "correct,uncert,,MILLS.CO2", ("changes nothing",)),
    ("cycle", ("~correct,span,,,2010,2022,2010~correct,span,,,2011,2022,2011",), "correct,span,,,2011",
     ("base year",)),
    ("power", ("~enter,span,,,2010,2020,2010~enter,span,,,2008,2020,2008",), "enter,span", ("base year",)),
    ("cycle", ("++", "split MILLS.GAS 2010 MILLS.NORTH MILLS.SOUTH",
               "+line 1A2 MILLS.NORTH Q10 FC=a:MILLS.NORTH EF=f:GAS.EF",
               "+line 1A2 MILLS.SOUTH Q10 FC=a:MILLS.SOUTH EF=f:GAS.EF"), "enter,line,1A2,MILLS.CO2",
     ("together",)),
    ("cycle", ("++", "split OTHERS.OIL 2018 YARD.OIL PORT.OIL",
               "+line 1A2 YARD.CO2 Q10 FC=a:YARD.OIL EF=f:OIL.EF",
               "+line 1A2 PORT.CO2 Q10 FC=a:PORT.OIL EF=f:OIL.EF"), "enter,line,1A2,OTHERS.CO2",
     ("together",)),
    ("manure", ("++", "split PIGS 2010 SOWS PORKERS", "+line 3A1 SOWS.ENTERIC Q55 EF=f:PIGS.EF N=a:SOWS",
                "+line 3A1 PORKERS.ENTERIC Q55 EF=f:PIGS.EF N=a:PORKERS"), "enter,line,3A1,PIGS.ENTERIC",
     ("together",)),
    ("cycle", ("+enter,factor,,COAL.EF,2015,95100,,,kg/TJ,", "++", "+withdraw,factor,,COAL.EF,2015,,,,,"),
     "withdraw,factor,,COAL.EF", ("holds",)),
    ("cycle", ("+withdraw,activity,,WORKS.COAL,2016,,,,,",),
     "withdraw,activity,,WORKS.COAL", ("withdrawal",)),
    ("cycle", ("-correct,span,,,2010,2022",), "enter,activity,,MILLS.GAS,2022",
     ("correct,span,,,2010,2022,2010,,,",)),
    ("kilns", ("++", *NEW),
     "enter,activity,,CEMENT,2021", ("5 activities", "correct,span,,,2010,2021,2010,,,")),
    # of all kinds, in other inventories
    ("wells", ("MINES.EF:0.018",), "enter,factor,,MINES.EF", ("Q14",)),
    ("wells", ("PITS.EF:1200",), "enter,factor,,PITS.EF", ("1000",)),
    ("wells", ("REFINERY.GAS:15700",), "enter,factor,,REFINERY.GAS", ("44/12",)),
    ("metals", ("BOF.EF:0.398",), "enter,factor,,BOF.EF", ("44/12",)),
    ("metals", ("HEXA:1.21",), "enter,factor,,HEXA", ("ratio",)),
    ("metals", ("OVEN.GAS:260000", "BFG:44400"), "enter,factor,,OVEN.GAS", ("coke oven gas",)),
    ("balance", ("GAS.C:56.1",), "enter,factor,,GAS.C", ("12/44",)),
    ("uses", ("LUBRICANTS.C:73.3",), "enter,factor,,LUBRICANTS.C", ("12/44",)),
    ("acids", ("AMMONIA.FUEL:37500",), "enter,factor,,AMMONIA.FUEL", ("1000",)),
    ("acids", ("AMMONIA.C:56.1",), "enter,factor,,AMMONIA.C", ("44/12",)),
    ("fields", ("DEEP.EF:126",), "enter,factor,,DEEP.EF", ("Q77",)),
    ("fields", ("FLOODED:130",), "enter,factor,,FLOODED", ("Q76",)),
    ("forest", ("CARBON:0.047",), "enter,factor,,CARBON", ("CF of",)),
    ("forest", ("PEAT.LOSS:680",), "enter,factor,,PEAT.LOSS", ("1000",)),
    ("meadows", ("REFERENCE:95000",), "enter,factor,,REFERENCE", ("1000",)),
    ("landfill", ("METHANE:0.05",), "enter,factor,,METHANE", ("F of Q93",)),
    ("sewage", ("N.IN.PROTEIN:6.25",), "enter,factor,,N.IN.PROTEIN", ("ratio",)),
    ("manure", ("PIGS.NR:0.00051",), "enter,factor,,PIGS.NR", ("1000",)),
    ("manure", ("PIGS.EF:15",), "enter,factor,,PIGS.EF", ("swine",)),
    ("meadows", ("HORSES:1.8",), "enter,factor,,HORSES", ("horses",)),
    ("burners", ("BIOGAS.CH4:-1",), "enter,factor,,BIOGAS.CH4", ("CH4",)),
    ("road", ("DIESEL@2013*0.023885",), "enter,activity,,DIESEL,2013", ("41.868",)),
    ("road", ("PETROL@2017=NE",), "enter,activity,,PETROL,2017", ("NE in 2017",)),
    ("metals", ("ALUMINIUM@2015=NE",), "enter,activity,,ALUMINIUM,2015", ("NE in 2015", "ANODES.CO2")),
    ("wells", ("OIL.PUMPED@2018*0.5",), "enter,activity,,OIL.PUMPED,2018", ("changes by",)),
    ("uses", ("PETCOKE@2013*2",), "enter,activity,,PETCOKE,2013", ("changes by",)),
    ("burners", ("copy 2014 2015",), "enter,activity,,PLASTIC,2015", ("figures of 2014",)),
    ("fields", ("copy 2018 2019",), "enter,activity,,LIMESTONE,2019", ("figures of 2018",)),
    ("cropland", ("~CHANGE,L,,line,BOGS~CHANGE,L,,key,NO",), "enter,line,3B2,BOGS", ("no line takes it",)),
    ("landfill", ("~GENERATED,DEC,,line,DECAYED~GENERATED,DEC,,key,NO",), "enter,line,4A,DECAYED",
     ("no line takes it",)),
    ("fields", ("~PADDY.CH4,EF,,line,PADDY.EF~PADDY.CH4,EF,,factor,DEEP.EF",), "enter,line,3C7,PADDY.EF",
     ("no line takes it",)),
    ("sewage", ("~SEWAGE.CH4,TOW,,line,LOAD~SEWAGE.CH4,TOW,,key,NO",), "enter,line,4D1,LOAD",
     ("no line takes it",)),
    ("burners", ("+line 4C1 FILM.CO2 Q97 SW=a:PLASTIC DM=f:PLASTIC.DM CF=f:PLASTIC.C FCF=f:PLASTIC.FOSSIL "
                 "OF=f:OXIDISED",), "enter,line,4C1,FILM.CO2", ("twice",)),
    ("dairy", ("+line 3A1 MILK.CH4 Q55 EF=l:COWS.ENTERIC.EF N=a:COWS",), "enter,line,3A1,MILK.CH4",
     ("twice",)),
    ("landfill", ("+line 4A DUMP.CH4 Q94 GEN=l:GENERATED R=k:NO OX=f:OXIDISED",), "enter,line,4A,DUMP.CH4",
     ("twice",)),
    ("cropland", ("+line 3B6 SOILS.CO2 Q84 C=l:SOIL",), "enter,line,3B6,SOILS.CO2", ("twice",)),
    ("road", ("~line,1A3b,PETROL.CH4~line,MC,PETROL.CH4",), "enter,line,MC,PETROL.CH4", ("gives CH4",)),
    ("homes", ("+line 1A3d SHIPS.INTERNATIONAL Q10 FC=a:SHIPS EF=f:SHIPS.EF", "+f SHIPS.EF kg/TJ 77400",
               "+a SHIPS TJ 900 950"), "enter,line,1A3d,SHIPS.INTERNATIONAL", ("bunkers",)),
    ("acids", ("GWP.N2O:298",), "enter,factor,,GWP.N2O", ("Fourth",)),
    ("fields", ("GWP.CH4:21",), "enter,factor,,GWP.CH4", ("Second",)),
    ("sewage", ("GWP.CH4:0.28",), "enter,factor,,GWP.CH4", ("no report",)),
    ("burners", ("GWP.CH4:7.6", "GWP.N2O:153", "GWP.CF4:11200", "GWP.C2F6:18200"), "enter,factor,,GWP.CH4",
     ("500 years",)),
    ("cycle", ("+correct,factor,,EWES.EF,2010,8.1,,,kg/head,",
               "+correct,factor,,EWES.EF,2010,7.9,,,kg/head,"),
     "correct,factor,,EWES.EF,2010,7.9", ("corrected twice",)),
    ("cycle", ("+correct,line,1A2,OTHERS.CO2,,Q10,,,,",), "correct,line,1A2,OTHERS.CO2",
     ("changes nothing",)),
    ("cycle", ("+correct,activity,,FIRES,2016,880,800,960,ha,",), "correct,activity,,FIRES,2016",
     ("changes nothing",)),
    ("cycle", ("+enter,factor,,EWES.EF,2018,8.4,,,kg/head,", "++", "+withdraw,factor,,EWES.EF,2018,,,,,"),
     "withdraw,factor,,EWES.EF", ("holds",)),
    ("cycle", ("++", "+withdraw,activity,,EWES,2014,,,,,"), "withdraw,activity,,EWES", ("withdrawal",)),
    ("wells", ("++", "+enter,activity,,OIL.PUMPED,2021,1.88,,,Mm3,",
               "+enter,activity,,REFINERY.GAS,2021,13000,,,TJ,"),
     "enter,activity,,OIL.PUMPED,2021", ("2 activities", "correct,span,,,2010,2021,2010,,,")),
    ("sewage", ("~enter,span,,,2010,2020,2010~enter,span,,,2005,2020,2005",), "enter,span", ("base year",)),
    ("road", ("++", "split DIESEL 2015 CARS.DIESEL TRUCKS.DIESEL",
              "+line 1A3b CARS.CO2 Q10 FC=a:CARS.DIESEL EF=f:DIESEL.CO2",
              "+line 1A3b TRUCKS.CO2 Q10 FC=a:TRUCKS.DIESEL EF=f:DIESEL.CO2"), "enter,line,1A3b,DIESEL.CO2",
     ("together",)),
    ("dairy", ("++", "split CATTLE 2010 BULLS HEIFERS", "+line 3A1 BULLS.CH4 Q55 EF=f:CATTLE.EF N=a:BULLS",
               "+line 3A1 HEIFERS.CH4 Q55 EF=f:CATTLE.EF N=a:HEIFERS"), "enter,line,3A1,CATTLE.ENTERIC",
     ("together",)),
    ("sewage", ("TOWN.PLANT:98",), "enter,factor,,TOWN.RIVER", ("TOWN.PLANT", "1.1 ")),
    ("sewage", ("+enter,factor,,TOWN,2015,80,,,pct,",), "enter,factor,,TOWN,2015", ("shares",)),
    ("burners", ("~BURNT.CH4,R,,key,NO~BURNT.CH4,R,,factor,CAUGHT", "+f CAUGHT Gg-gas 0.2"),
     "enter,line,4C1,BURNT.CH4", ("below zero", "R")),
    ("dairy", ("+enter,factor,,CATTLE.EF,2014,NE,,,kg/head,", "+enter,factor,,CATTLE.EF,2015,57,,,kg/head,"),
     "enter,factor,,CATTLE.EF,2014", ("NE in 2014",)),
    # other units of energy, of time and of ratios
    ("sewage", ("BOD:21.9",), "enter,factor,,BOD,", ("0.365", "of a year")),
    ("sewage", ("PROTEIN:91",), "enter,factor,,PROTEIN,", ("0.365", "of a day")),
    ("sewage", ("~N.IN.PROTEIN,2010,0.16~N.IN.PROTEIN,2010,16",), "enter,factor,,N.IN.PROTEIN",
     ("is it in pct?",)),
    ("power", ("~COAL.NCV~HARD.COAL.NCV", "~COAL.T,~HARD.COAL.T,", "HARD.COAL.NCV:6.16"),
     "enter,factor,,HARD.COAL.NCV", ("4.1868", "Gcal")),
    ("homes", ("GAS.CO2:2340",), "enter,factor,,GAS.CO2", ("1000/41.868", "toe")),
    ("homes", ("PEAT.CO2:56100",), "enter,factor,,PEAT.CO2", ("that of natural gas",)),
    ("homes", ("STOVES.N2O:4000",), "enter,factor,,STOVES.N2O", ("thousand",)),
    ("power", ("GAS.CH4:1000",), "enter,factor,,GAS.CH4", ("CH4 of natural gas", "thousand")),
    ("acids", ("~NITRIC.EF,2010,7,,,kg/t~NITRIC.EF,2010,7,,,t/t",), "enter,factor,,NITRIC.EF,2010",
     ("is it in kg/t?",)),
    ("acids", ("NITRIC.EF:0.007",), "enter,factor,,NITRIC.EF,2010", ("thousand",)),
    ("acids", ("~DESTROYED,2010,98.5,,,pct~DESTROYED,2010,98.5,,,1",), "enter,factor,,DESTROYED",
     ("is it in pct?",)),
    ("wells", ("FLARES.N2O:0.64",), "enter,factor,,FLARES.N2O", ("thousand",)),
    ("balance", ("~GAS.C,~LNG.C,", "~,GAS.IN,~,LNG.IN,", "LNG.C:56.1"), "enter,factor,,LNG.C", ("12/44",)),
    ("landfill", ("DOC:0.15",), "enter,factor,,DOC,", ("pct",)),
    ("kilns", ("CLINKER.SHARE:0.78",), "enter,factor,,CLINKER.SHARE", ("is it a share under the unit pct?",)),
    ("kilns", ("CULLET:0.45",), "enter,factor,,CULLET", ("is it a share under the unit pct?",)),
    ("acids", ("DESTROYED:0.985",), "enter,factor,,DESTROYED", ("is it a share under the unit pct?",)),
    ("balance", ("~f ALL 1 1~f ALL pct 1", "~ALL,2010,1,,,1~ALL,2010,1,,,pct"), "enter,factor,,ALL",
     ("is it a share under the unit pct?",)),
    # an old line beside the lines that split it, of which other lines take its activity too
    ("power", ("++", "split GAS.TJ 2010 NORTH.TJ SOUTH.TJ", "+line 1A1a NORTH.CO2 Q10 FC=a:NORTH.TJ EF=f:GAS.CO2",
               "+line 1A1a SOUTH.CO2 Q10 FC=a:SOUTH.TJ EF=f:GAS.CO2", "GAS.TJ@2019*1.02"),
     "enter,line,1A1a,GAS.CO2",
     ("together in 2010 to 2018 and 2020", "withdraw it alone: GAS.CH4 and GAS.N2O take its activity")),
    # what stands in the place of another
    ("wells", ("~line,1B2,OIL.CH4~line,1B1,OIL.CH4",), "enter,line,1B1,OIL.CH4", ("1B2",)),
    ("wells", ("~line,1B1,PITS.CH4~line,1B2,PITS.CH4",), "enter,line,1B2,PITS.CH4", ("1B1",)),
    ("kilns", ("~line,2A3,GLASS.CO2~line,2A2,GLASS.CO2",), "enter,line,2A2,GLASS.CO2", ("2A3",)),
    ("soils", ("~line,3C4,~line,3C5,",), "enter,line,3C5,INPUTS.N2O", ("3C4",)),
    ("sewage", ("~line,4D1,SEWAGE.N2O~line,4A,SEWAGE.N2O",), "enter,line,4A,SEWAGE.N2O", ("4D",)),
    ("dairy", ("~line,3A1,CATTLE.ENTERIC~line,3A2,CATTLE.ENTERIC",), "enter,line,3A2,CATTLE.ENTERIC", ("3A1",)),
    ("homes", ("~PEAT.CO2,EF,,factor,PEAT.CO2~PEAT.CO2,EF,,factor,GAS.CO2",), "enter,bind,PEAT.CO2,EF",
     ("peat", "natural gas")),
    ("homes", ("~,LPG.CO2,EF,,factor,LPG.CO2~,LPG.CO2,EF,,factor,PEAT.CO2",), "enter,bind,LPG.CO2,EF",
     ("lpg", "is of peat")),
    ("forest", ("~GROWTH,CF,,factor,CARBON~GROWTH,CF,,factor,ROOTS", "~GROWTH,R,,factor,ROOTS~GROWTH,R,,factor,CARBON"),
     "enter,bind,GROWTH,CF", ("swapped",)),
    # the reference approach, and a year's cycle
    ("balance", ("~COAL.USE,IM,,activity,COAL.IN~COAL.USE,IM,,activity,COAL.OUT",
                 "~COAL.USE,EX,,activity,COAL.OUT~COAL.USE,EX,,activity,COAL.IN", "COAL.IN*3", "COAL.BURNT*1.3"),
     "enter,line,RA,COAL.RA", ("IM and EX of line COAL.USE", "swapped")),
    ("balance", ("GAS.IN*3", "~GAS.CO2,FC,,activity,GAS.IN~GAS.CO2,FC,,activity,GAS.HERE", "+a GAS.HERE PJ 61 70"),
     "enter,line,RA,GAS.RA", ("most of it is gas",)),
    ("cycle", ("+correct,activity,,FIRES,2016,0.88,0.8,0.96,kha,",), "correct,activity,,FIRES,2016",
     ("changes nothing",)),
    ("cycle", ("+enter,factor,,EWES.EF,2018,8.4,,,kg/head,", "++", "+withdraw,factor,,EWES.EF,2010,,,,,"),
     "withdraw,factor,,EWES.EF", ("begins in 2018", "blank in 2010 to 2017")),
    ("cycle", ("+correct,activity,,OTHERS.OIL,2016,4400,,,TJ,",), "correct,activity,,OTHERS.OIL,2016",
     ("nearly", "MILLS.GAS")),
    ("cycle", ("+correct,activity,,EWES,2061,300000,,,head,",), "correct,activity,,EWES,2061",
     ("is 2016 meant?",)),
    # in other languages and sectors
    ("steelworks", ("BF.GAS.CO2:44.4",), "enter,factor,,BF.GAS.CO2", ("coke oven gas",)),
    ("steelworks", ("LD.GAS.CO2:56.1",), "enter,factor,,LD.GAS.CO2", ("natural gas",)),
    ("steelworks", ("PET.COKE.CO2:26600",), "enter,factor,,PET.COKE.CO2", ("44/12",)),
    ("steelworks", ("~line,MC,CHARCOAL.CO2~line,1A2,CHARCOAL.CO2",), "enter,line,1A2,CHARCOAL.CO2", ("biomass",)),
    ("steelworks", ("BOF.EF:0.08", "EAF.EF:1.46"), "enter,factor,,BOF.EF", ("EAF.EF", "swapped")),
    ("france", ("ESSENCE.CO2:3070",), "enter,factor,,ESSENCE.CO2", ("tonne of fuel",)),
    ("france", ("GAZOLE.CO2:2.68",), "enter,factor,,GAZOLE.CO2", ("litre",)),
    ("france", ("GAZOLE.CO2:77400",), "enter,factor,,GAZOLE.CO2", ("residual oil",)),
    ("france", ("GAZ.NATUREL.CO2:65100",), "enter,factor,,GAZ.NATUREL.CO2", ("swapped",)),
    ("france", ("VACHES.EF:57", "BOVINS.EF:117"), "enter,factor,,BOVINS.EF", ("dairy",)),
    ("france", ("BREBIS.EF:0.28",), "enter,factor,,BREBIS.EF", ("manure",)),
    ("france", ("~CHARBON.CO2,EF,,factor,CHARBON.CO2~CHARBON.CO2,EF,,factor,GAZ.NATUREL.CO2",),
     "enter,bind,CHARBON.CO2,EF", ("natural gas",)),
    ("deutschland", ("BRAUNKOHLE.HU:2.17",), "enter,factor,,BRAUNKOHLE.HU", ("Gcal",)),
    ("deutschland", ("KEROSIN.CO2:17500",), "enter,factor,,KEROSIN.CO2", ("swapped",)),
    ("deutschland", ("SCHWEINE.EF:57",), "enter,factor,,SCHWEINE.EF", ("cattle",)),
    ("deutschland", ("STEINKOHLE.CO2:340",), "enter,factor,,STEINKOHLE.CO2", ("3.6",)),
    ("iberia", ("CLINKER.EF:0.65",), "enter,factor,,CLINKER.EF", ("CaO",)),
    ("iberia", ("PORCINO.VS:3",), "enter,factor,,PORCINO.VS", ("VS of Q58 for swine", "point")),
    ("iberia", ("CAL.EF:0.95",), "enter,factor,,CAL.EF", ("CaO",)),
    ("iberia", ("GLP.NCV:25.5",), "enter,factor,,GLP.NCV", ("m3",)),
    ("fleet", ("~line,1A4c,FISHING.CO2~line,MB,FISHING.CO2",), "enter,line,MB,FISHING.CO2", ("1A4c",)),
    ("fleet", ("JET.CO2:77400",), "enter,factor,,JET.CO2", ("residual oil",)),
    ("fleet", ("RAIL.N2O:2.86",), "enter,factor,,RAIL.N2O", ("point",)),
    ("sites", ("CITY.WASTE@2015*0.53",), "enter,activity,,CITY.WASTE,2015", ("stock",)),
    ("sites", ("+line 4A CITY.MORE Q94 GEN=l:CITY.MADE R=k:NO OX=k:NO",), "enter,line,4A,CITY.MORE", ("twice",)),
    ("sites", ("+line 4A B.C Q90 W=a:CITY.WASTE DOC=f:CITY.DOC DOCF=f:DOCF MCF=f:MANAGED",
               "+line 4A B.STOCK Q91 DEP=l:B.C PREV=p:B.STOCK D=d:SLOW",
               "+line 4A B.DECAYED Q92 PREV=p:B.STOCK D=d:SLOW",
               "+line 4A B.MADE Q93 DEC=l:B.DECAYED F=f:HALF",
               "+line 4A B.CH4 Q94 GEN=l:B.MADE R=k:NO OX=f:COVER",),
     "enter,line,4A,B.C", ("CITY.WASTE",)),
    ("sites", ("COVER:0.9",), "enter,factor,,COVER", ("what is left",)),
    ("nitrogen", ("~UREA.CO2,M,,activity,UREA~UREA.CO2,M,,activity,MINERAL.N", "-enter,activity,,UREA,",),
     "enter,bind,UREA.CO2,M", ("nitrogen", "urea")),
    ("nitrogen", ("~AIR.N2O,EF4,,factor,EF4~AIR.N2O,EF4,,factor,EF5",), "enter,bind,AIR.N2O,EF4", ("EF5",)),
    ("nitrogen", ("EF4:0.0075", "EF5:0.01"), "enter,factor,,EF4", ("EF5",)),
    ("nitrogen", ("DUNG.BURNT:97",), "enter,factor,,DUNG.BURNT", ("what is left",)),
    ("nitrogen", ("~MANURE.N,FF,,key,NO~MANURE.N,FF,,factor,FED", "+f FED 1 0.6", "DUNG.BURNT:55",),
     "enter,line,3C4,MANURE.N", ("FF",)),
    ("nitrogen", ("~MANURE.N,NA,,line,COWS.LEFT~MANURE.N,NA,,sum,COWS.LEFT COWS.PASTURE",),
     "enter,bind,MANURE.N,NA", ("pasture",)),
    ("nitrogen", ("+line 3C4 FERT.N2O Q69 FSN=a:MINERAL.N FON=k:NO FCR=k:NO FSOM=k:NO EF1=f:EF1",),
     "enter,line,3C4,FERT.N2O", ("twice",)),
    ("nitrogen", ("COWS.NEX:0.28",), "enter,factor,,COWS.NEX", ("NEX",)),
    ("chemistry", ("NITRIC.NEW.EF:1.2",), "enter,factor,,NITRIC.NEW.EF", ("abate",)),
    ("chemistry", ("+line 2B3 ADIPIC.ABATED.N2O Q39 EF=f:ADIPIC.EF P=a:ADIPIC DF=f:CATALYST ASUF=f:RUNNING",),
     "enter,line,2B3,ADIPIC.ABATED.N2O", ("twice",)),
    ("chemistry", ("CATALYST:15",), "enter,factor,,CATALYST", ("what is left",)),
    ("asia", ("BUFFALO.DUNG:55",), "enter,factor,,BUFFALO.DUNG", ("enteric",)),
    ("asia", ("HENS.DUNG:20",), "enter,factor,,HENS.DUNG", ("1000",)),
    ("sites", ("CITY.FIRST@2011=-1350",), "enter,activity,,CITY.FIRST,2011", ("before the span",)),
    ("sites", ("~CITY.DECAYED,PREV,,line,CITY.BEFORE~CITY.DECAYED,PREV,,line,CITY.STOCK",),
     "enter,bind,CITY.DECAYED,PREV", ("same year", "enter,bind,CITY.DECAYED,PREV,,prev,CITY.STOCK")),
    ("stocks", OTHER_SIGN, "enter,bind,LIGNITE.USE,SC", ("other sign",)),
    ("cycle", ("+correct,activity,,MILLS.GAS,2018,4110,,,TJ,",), "correct,activity,,MILLS.GAS,2018",
     ("is 2011 meant?",)),
    ("power", ("COAL.NCV:6160",), "enter,factor,,COAL.NCV", ("kcal",)),
    ("road", ("PETROL.CO2:2310",), "enter,factor,,PETROL.CO2", ("m3",)),
    ("road", ("JET.CO2:3.15",), "enter,factor,,JET.CO2", ("tonne of fuel",)),
    ("homes", ("LPG.CO2:1.51",), "enter,factor,,LPG.CO2", ("litre",)),
    ("homes", ("PEAT.CO2:160000",), "enter,factor,,PEAT.CO2", ("swapped",)),
    ("dairy", ("COWS.VS:0.51",), "enter,factor,,COWS.VS", ("point",)),
    ("dairy", ("COWS.INTAKE*365",), "enter,activity,,COWS.INTAKE,2010", ("365",)),
    ("dairy", ("SHEEP.EF:57", "CATTLE.EF:8"), "enter,factor,,CATTLE.EF", ("swapped",)),
    ("manure", ("PIGS.MASS:500",), "enter,factor,,PIGS.MASS", ("point",)),
    ("soils", ("FG:0.01",), "enter,factor,,FG", ("0.1",)),
    ("soils", ("~RUN.N2O,FL,,factor,FL~RUN.N2O,FL,,factor,FM", "~RUN.N2O,EF5,,factor,EF5~RUN.N2O,EF5,,factor,EF4"),
     "enter,bind,RUN.N2O,FL", ("FM",)),
    ("burners", ("OXIDISED:10",), "enter,factor,,OXIDISED", ("OF of Q97",)),
    ("acids", ("AMMONIA.FUEL:3.75",), "enter,factor,,AMMONIA.FUEL", ("point",)),
    ("acids", ("ADIPIC.EF:4.5",), "enter,factor,,ADIPIC.EF", ("abatement",)),
    ("acids", ("IN.USE:11",), "enter,factor,,IN.USE", ("left",)),
    ("cropland", ("LITTLE:0.108",), "enter,factor,,LITTLE", ("FMG",)),
    ("cropland", ("TILLED:6.9",), "enter,factor,,TILLED", ("FLU",)),
    ("asia", ("CANE.CH4:27",), "enter,factor,,CANE.CH4", ("point",)),
    ("meadows", ("REFERENCE:9.5",), "enter,factor,,REFERENCE", ("kg/m2",)),
    ("meadows", ("~GOATS.CH4,EF,,factor,GOATS~GOATS.CH4,EF,,factor,HORSES",), "enter,factor,,HORSES", ("horses",)),
    ("wells", ("REFINERY.GAS:75600",), "enter,factor,,REFINERY.GAS", ("swapped",)),
    ("kilns", ("CLINKER.EF:0.66",), "enter,factor,,CLINKER.EF", ("CaO",)),
    ("uses", ("PETCOKE.CO2:79500",), "enter,factor,,PETCOKE.CO2", ("swapped",)),
    ("metals", ("ANODES.EF:0.436",), "enter,factor,,ANODES.EF", ("44/12",)),
    ("landfill", ("+line 4A GAS.CH4 Q94 GEN=l:GENERATED R=a:RECOVERED OX=k:NO",),
     "enter,line,4A,GAS.CH4", ("twice",)),
    ("france", ("~line,3A1,BREBIS.CH4~line,3A2,BREBIS.CH4",), "enter,factor,,BREBIS.EF", ("enteric",)),
    ("france", ("~enter,line,MB~",
                "+line MB PECHE.CO2 Q10 FC=a:PECHE.GAZOLE EF=f:GAZOLE.CO2",
                "+a PECHE.GAZOLE TJ 2100 1900"),
     "enter,line,MB,PECHE.CO2", ("1A4c",)),
    ("nitrogen", ("~COWS.LEFT,FL,,factor,DEEP.FL~COWS.LEFT,FL,,factor,LEFT.SHARE", "+f LEFT.SHARE pct 95"),
     "enter,factor,,LEFT.SHARE", ("left",)),
    ("nitrogen", ("+line 3C4 MANURE.N2O Q69 FSN=k:NO FON=l:MANURE.N FCR=k:NO FSOM=k:NO EF1=f:EF1",),
     "enter,line,3C4,MANURE.N2O", ("twice",)),
    ("nitrogen", ("~FSN,,activity,MINERAL.N~FSN,,activity,UREA",), "enter,bind,INPUTS.N2O,FSN", ("urea",)),
    ("cycle", ("+correct,activity,,WORKS.COAL,2012,2080,,,TJ,",),
     "correct,activity,,WORKS.COAL,2012", ("is 2022 meant?",)),
    # what is usual of one waste, animal or category
    ("landfill", ("~WASTE~FOOD.WASTE", "DOC:40"), "enter,factor,,DOC,", ("0.08 to 0.2",)),
    ("landfill", ("~WASTE~FOOD.WASTE", "HALFLIFE:18"), "enter,factor,,HALFLIFE", ("1 to 14", "is it the rate?")),
    ("landfill", ("~WASTE~WOOD.WASTE", "DOC:43", "HALFLIFE:3"), "enter,factor,,HALFLIFE", ("14 to 69",)),
    ("forest", ("ROOTS:1.29",), "enter,factor,,ROOTS", ("1 + R",)),
    ("fields", ("SEASON:365",), "enter,factor,,SEASON", ("60 to 270",)),
    ("wells", ("OIL.CH4:1800",), "enter,factor,,OIL.CH4", ("EF of Q15",)),
    ("uses", ("USED.UP:100",), "enter,factor,,USED.UP", ("ODU of Q46",)),
    ("dairy", ("COWS.BO:0.48",), "enter,factor,,COWS.BO", ("BO of Q58",)),
    ("cropland", ("BOGS:18.33",), "enter,factor,,BOGS", ("44/12 of the default 5", "Q84")),
    # notation keys that leave a line without a value
    ("kilns", ("~LIME.CO2,CF,,factor,KILN.DUST~LIME.CO2,CF,,key,NO",), "enter,bind,LIME.CO2,CF",
     ("zero in all years",)),
    ("homes", ("STOVES.N2O:NE",), "enter,bind,STOVES.N2O,EF", ("blank in all years",)),
    ("power", ("GAS.TJ@2020=NE",), "enter,activity,,GAS.TJ,2020", ("NE in 2020", "2010 to 2019")),
    # what is another's by its name
    ("homes", ("~line,1A4b,HOMES.GAS.CO2~line,MB,HOMES.GAS.CO2", "+f GAS.CH4 kg/TJ 5", "+f GAS.N2O kg/TJ 0.1",
               "+line 1A4b HOMES.GAS.CH4 Q11 FC=a:HOMES.GAS EF=f:GAS.CH4",
               "+line 1A4b HOMES.GAS.N2O Q12 FC=a:HOMES.GAS EF=f:GAS.N2O"),
     "enter,line,MB,HOMES.GAS.CO2", ("is its category 1A4b?",)),
    ("dairy", ("~SHEEP.ENTERIC,EF,,factor,SHEEP.EF~SHEEP.ENTERIC,EF,,factor,CATTLE.EF",),
     "enter,bind,SHEEP.ENTERIC,EF", ("of sheep", "of cattle")),
    ("homes", ("~STOVES.CH4,EF,,factor,STOVES.CH4~STOVES.CH4,EF,,factor,LPG.CH4", "+f LPG.CH4 kg/TJ 5"),
     "enter,bind,STOVES.CH4,EF", ("is of lpg",)),
    ("cropland", ("~S0,,sum,NOW.FULL NOW.LITTLE~S0,,sum,THEN.FULL THEN.LITTLE",
                  "~ST,,sum,THEN.FULL THEN.LITTLE~ST,,sum,NOW.FULL NOW.LITTLE"),
     "enter,bind,SOIL,S0", ("which is ST of Q86",)),
    ("sewage", ("BOD.CH4:0.25",), "enter,bind,PLANT.EF,BO", ("of COD", "BOD by line LOAD")),
    ("soils", ("SLUDGE.N@2015*10",), "enter,activity,,SLUDGE.N,2015", ("hardly shows it",)),
)]

# Those that are not told: a calorific value of hard coal that lignite may have, which some call coal; and
# municipal waste, which is biomass in part.
NOT_TOLD = [
    Mistake("power", ("COAL.NCV:6.16",), "enter,factor,,COAL.NCV", ("bituminous",)),
    Mistake("burners", ("~line,1A1a,MSW~line,MC,MSW",), "enter,line,MC,MSW.CO2", ("MC",)),
]
# The potentials of the second report.
SECOND_REPORT = ("GWP.CH4:21", "GWP.N2O:310", "GWP.CF4:6500", "GWP.C2F6:9200")
# Changes of an inventory by which it stays right, by the inventory.
STILL_RIGHT: tuple[tuple[str, tuple[str, ...]], ...] = (
    ("power", ("+enter,factor,,GAS.CO2,2015,56.3,,,t/TJ,", "+enter,factor,,COAL.NCV,2014,24.9,,,TJ/Gg,")),
    ("power", SECOND_REPORT), ("dairy", ("GWP.CH4:25", "GWP.N2O:298", "GWP.CF4:7390", "GWP.C2F6:12200")),
    ("soils", ("GWP.CH4:27.9", "GWP.N2O:273", "GWP.CF4:7380", "GWP.C2F6:12400")),
    ("dairy", ("+enter,factor,,CATTLE.EF,2016,60,,,kg/head,", "SHEEP.EF:9.2")),
    ("soils", ("EF1:0.011", "EF5:0.011", "EF2:13")), ("landfill", ("RECOVERED@2010=NO", "DOC:17")),
    ("forest", ("STORMS@2014*5", "GROWTH:6.3", "CARBON:0.47")),
    ("homes", ("STOVES.CH4:210", "WOOD.CO2:109000", "PEAT.CO2:104000", "LPG.NCV:46.1")),
    ("manure", ("PIT.SHARE:81.9", "HEAP.SHARE:18.1")), ("kilns", ("CLINKER.EF:0.529", "LIME.EF:0.86")),
    ("metals", ("BFG:268000", "OVEN.GAS:41200", "BOF.EF:1.52")), ("burners", ("MSW.CO2:41000",)),
    ("sewage", ("BOD:54", "BOD.CH4:0.58")), ("fields", ("DRAINED:0.52", "DEEP.EF:2.6")),
    ("cycle", ("++", "+correct,span,,,2010,2023,2010,,,", "+enter,activity,,MILLS.GAS,2023,4611,,,TJ,",
               "+enter,activity,,WORKS.COAL,2023,2030,,,TJ,", "+enter,activity,,OTHERS.OIL,2023,957,,,TJ,",
               "+enter,activity,,EWES,2023,297000,,,head,", "+enter,activity,,FIRES,2023,120,110,130,ha,",
               "+correct,activity,,EWES,2022,298650,,,head,")),
    ("wells", ("split REFINERY.GAS 2010 NORTH.GAS SOUTH.GAS",
               "+line 1A1b NORTH Q10 FC=a:NORTH.GAS EF=f:REFINERY.GAS",
               "+line 1A1b SOUTH Q10 FC=a:SOUTH.GAS EF=f:REFINERY.GAS", "REFINERY.GAS=IE")),
    ("acids", ("NITRIC.EF:5", "AMMONIA.FUEL:33")), ("uses", ("PETCOKE.CO2:95200", "LUBRICANTS.C:19.7")),
    ("wells", ("+line 1B1 AFTER.CH4 Q14 P=a:COAL.UNDERGROUND EF=f:AFTER.EF", "+f AFTER.EF m3/t 2.5",
               "+line 1B2 VENTS.CH4 Q15 A=a:OIL.PUMPED EF=f:VENTS.CH4", "+f VENTS.CH4 kg/m3 0.72")),
    ("power", ("+line 5B SF6 Q32 MCL=a:SF6 EF=f:SF6.POTENTIAL CF=f:ALL", "+a SF6 t 2.8 2.4",
               "+f SF6.POTENTIAL 1 23500", "+f ALL 1 1")),
    ("balance", ("COAL.STOCKS@2015*0.001",)), ("landfill", ("~WASTE~GARDEN.WASTE", "DOC:20", "HALFLIFE:4")),
    ("sewage", ("BOD:34", "PROTEIN:21")), ("acids", ("NITRIC.EF:9", "ADIPIC.EF:290")),
    ("landfill", ("DOC:4",)), ("wells", ("FLARES.N2O:0.0003",)),
    ("cropland", ("BOGS:7.9", "LITTLE:1.1")), ("wells", ("MINES.EF:11", "REFINERY.GAS:56800")),
)


def changed(mistake: Mistake) -> list[list[str]]:
    """The files of an inventory with a mistake in it."""
    files = files_of(RIGHT[mistake.inventory])
    for edit in mistake.edits:
        files = edited(files, edit)
    return files


def edited(files: list[list[str]], edit: str) -> list[list[str]]:
    """Files with an edit carried out."""
    if edit == "++":
        return [*files, []]
    if edit[0] == "+":
        return [*files[:-1], files[-1] + rows_of(edit[1:])]
    if edit[0] == "-":
        return [[row for row in rows if not row.startswith(edit[1:])] for rows in files]
    if edit[0] == "~":
        _, old, new = edit.split("~")
        return [[row.replace(old, new) for row in rows] for rows in files]
    if edit.startswith("copy "):
        return copied(files, *edit.split()[1:])
    if edit.startswith("split "):
        return [*files[:-1], files[-1] + parts(files, *edit.split()[1:])]
    return [[with_figure(row, edit) for row in rows] for rows in files]


def copied(files: list[list[str]], year: str, other: str) -> list[list[str]]:
    """Files in which the activities of a year are those of another once more."""
    fields = [row.split(",") for rows in files for row in rows]
    known = {row[3]: row[5:8] for row in fields if row[1] == "activity" and row[4] == year}
    return [[",".join([*row.split(",")[:5], *known[row.split(",")[3]], *row.split(",")[8:]])
             if row.split(",")[1] == "activity" and row.split(",")[4] == other else row
             for row in rows] for rows in files]


def parts(files: list[list[str]], name: str, year: str, one: str, other: str) -> list[str]:
    """The rows of two activities, of 40 and 60 percent of another one from a year on."""
    rows = [row.split(",") for rows in files for row in rows]
    own = [row for row in rows if row[1:4] == ["activity", "", name] and row[4] >= year]
    return [f"enter,activity,,{part},{row[4]},{float(row[5]) * share:.3f},,,{row[8]},"
            for part, share in ((one, 0.4), (other, 0.6)) for row in own]


def with_figure(row: str, edit: str) -> str:
    """A row with the figure that an edit gives it, if that is of the row."""
    fields = row.split(",")
    found = re.fullmatch(r"([A-Z0-9.]+)(?:@(\d+))?([=*:])(.+)", edit)
    if not found:
        raise ValueError(edit)
    name, year, act, figure = found.groups()
    kind = "factor" if act == ":" else "activity"
    if fields[1] != kind or fields[3] != name or year not in (None, fields[4]):
        return row
    fields[5] = digits(float(fields[5]) * float(figure)) if act == "*" else figure
    if act == "=" and figure == "NE":
        fields[6:8] = ["", ""]
    return ",".join(fields)
