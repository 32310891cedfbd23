"""Right inventories in a short notation, and how they become files.

A row is `line CATEGORY NAME EQUATION PARAMETER=FORM:TARGET ..`, with `+` between the lines of a sum;
`a NAME UNIT FIRST LAST`, an activity that goes from one figure to another over the span, with a movement of a
few percent; `f NAME UNIT VALUE`; or a row of the program as it is. `file` begins a new file. Each inventory
has the span SPAN and the potentials of one report in front.
"""
import pathlib

from tests.workbook.further import FURTHER

FIRST, LAST = 2010, 2020
YEARS = range(FIRST, LAST + 1)
HEADER = "act,kind,subject,name,year,value,low,high,unit,note"
FORMS = {"a": "activity", "f": "factor", "l": "line", "s": "sum", "p": "prev", "k": "key", "d": "decay"}
SPAN = f"""\
enter,span,,,{FIRST},{LAST},{FIRST},,,
enter,factor,,GWP.CO2,{FIRST},1,,,1,
enter,factor,,GWP.CH4,{FIRST},28,,,1,
enter,factor,,GWP.N2O,{FIRST},265,,,1,
enter,factor,,GWP.CF4,{FIRST},6630,,,1,
enter,factor,,GWP.C2F6,{FIRST},11100,,,1,
"""

RIGHT = {
    "power": """
line 1A1a COAL.TJ Q13 FM=a:COAL.T NCV=f:COAL.NCV
line 1A1a COAL.CO2 Q10 FC=l:COAL.TJ EF=f:COAL.CO2
line 1A1a COAL.N2O Q12 FC=l:COAL.TJ EF=f:COAL.N2O
line 1A1a GAS.CO2 Q10 FC=a:GAS.TJ EF=f:GAS.CO2
line 1A1a GAS.CH4 Q11 FC=a:GAS.TJ EF=f:GAS.CH4
line 1A1a GAS.N2O Q12 FC=a:GAS.TJ EF=f:GAS.N2O
f COAL.NCV TJ/Gg 25.8
f COAL.CO2 t/TJ 94.6
f COAL.N2O kg/TJ 1.5
f GAS.CO2 t/TJ 56.1
f GAS.CH4 kg/TJ 1
f GAS.N2O kg/TJ 0.1
a COAL.T kt 4100 3350
a GAS.TJ TJ 71000 88000
""",
    "road": """
line 1A3b PETROL.CO2 Q10 FC=a:PETROL EF=f:PETROL.CO2
line 1A3b PETROL.CH4 Q11 FC=a:PETROL EF=f:PETROL.CH4
line 1A3b PETROL.N2O Q12 FC=a:PETROL EF=f:PETROL.N2O
line 1A3b DIESEL.CO2 Q10 FC=a:DIESEL EF=f:DIESEL.CO2
line 1A3b DIESEL.CH4 Q11 FC=a:DIESEL EF=f:DIESEL.CH4
line 1A3b DIESEL.N2O Q12 FC=a:DIESEL EF=f:DIESEL.N2O
line 1A3a FLIGHTS.CO2 Q10 FC=a:JET.DOMESTIC EF=f:JET.CO2
line MB BUNKERS.CO2 Q10 FC=a:JET.BUNKERS EF=f:JET.CO2
f PETROL.CO2 kg/TJ 69300
f PETROL.CH4 kg/TJ 25
f PETROL.N2O kg/TJ 8
f DIESEL.CO2 kg/TJ 74100
f DIESEL.CH4 kg/TJ 3.9
f DIESEL.N2O kg/TJ 3.9
f JET.CO2 kg/TJ 71500
a PETROL PJ 62 51
a DIESEL PJ 80 97
a JET.DOMESTIC TJ 2300 2650
a JET.BUNKERS TJ 19000 24500
""",
    "homes": """
line 1A4b LPG.TJ Q13 FM=a:LPG.T NCV=f:LPG.NCV
line 1A4b LPG.CO2 Q10 FC=l:LPG.TJ EF=f:LPG.CO2
line 1A4b HOMES.GAS.CO2 Q10 FC=a:HOMES.GAS EF=f:GAS.CO2
line 1A4b STOVES.CH4 Q11 FC=a:FIREWOOD EF=f:STOVES.CH4
line 1A4b STOVES.N2O Q12 FC=a:FIREWOOD EF=f:STOVES.N2O
line MC FIREWOOD.CO2 Q10 FC=a:FIREWOOD EF=f:WOOD.CO2
line 1A4a PEAT.CO2 Q10 FC=a:PEAT EF=f:PEAT.CO2
f LPG.NCV GJ/t 47.3
f LPG.CO2 kg/TJ 63100
f GAS.CO2 kg/TJ 55900
f STOVES.CH4 kg/TJ 300
f STOVES.N2O kg/TJ 4
f WOOD.CO2 kg/TJ 112000
f PEAT.CO2 kg/TJ 106000
a LPG.T kt 96 104
a HOMES.GAS TJ 21000 26500
a FIREWOOD TJ 14800 13900
a PEAT TJ 640 590
""",
    "balance": """
line RA COAL.USE Q22 PR=a:COAL.MINED IM=a:COAL.IN EX=a:COAL.OUT IB=k:NO SC=a:COAL.STOCKS
line RA COAL.RA Q26 AC=l:COAL.USE CC=f:COAL.C XC=k:NO COF=f:ALL
line RA GAS.USE Q22 PR=k:NO IM=a:GAS.IN EX=k:NO IB=k:NO SC=k:NO
line RA GAS.RA Q26 AC=l:GAS.USE CC=f:GAS.C XC=k:NO COF=f:ALL
line RA DIESEL.USE Q23 IM=a:DIESEL.IN EX=a:DIESEL.OUT IB=k:NO SC=k:NO
line RA DIESEL.RA Q26 AC=l:DIESEL.USE CC=f:DIESEL.C XC=k:NO COF=f:ALL
line 1A1a COAL.CO2 Q10 FC=a:COAL.BURNT EF=f:COAL.CO2
line 1A2 GAS.CO2 Q10 FC=a:GAS.IN EF=f:GAS.CO2
f COAL.C tC/TJ 25.8
f GAS.C tC/TJ 15.3
f DIESEL.C tC/TJ 20.2
f ALL 1 1
f COAL.CO2 kg/TJ 94600
f GAS.CO2 kg/TJ 56100
a COAL.MINED PJ 140 131
a COAL.IN PJ 22 20
a COAL.OUT PJ 12 11
a COAL.STOCKS PJ 1.5 -0.9
a GAS.IN PJ 61 70
a DIESEL.IN PJ 0.8 0.9
a DIESEL.OUT PJ 2.1 2.3
a COAL.BURNT PJ 148.5 141
""",
    "wells": """
line 1B1 MINES.CH4 Q14 P=a:COAL.UNDERGROUND EF=f:MINES.EF
line 1B1 PITS.CH4 Q14 P=a:COAL.SURFACE EF=f:PITS.EF
line 1B2 OIL.CH4 Q15 A=a:OIL.PUMPED EF=f:OIL.CH4
line 1B2 OIL.CO2 Q16 A=a:OIL.PUMPED EF=f:OIL.CO2
line 1B2 FLARES.N2O Q17 A=a:OIL.PUMPED EF=f:FLARES.N2O
line 1A1b REFINERY.CO2 Q10 FC=a:REFINERY.GAS EF=f:REFINERY.GAS
f MINES.EF m3/t 18
f PITS.EF m3/t 1.2
f OIL.CH4 Gg/Mm3 0.0018
f OIL.CO2 Gg/Mm3 0.04
f FLARES.N2O Gg/Mm3 0.00064
f REFINERY.GAS kg/TJ 57600
a COAL.UNDERGROUND kt 3300 2950
a COAL.SURFACE kt 900 960
a OIL.PUMPED Mm3 2.3 1.9
a REFINERY.GAS TJ 12500 12900
""",
    "kilns": """
line 2A1 CLINKER Q30 MC=a:CEMENT CCL=f:CLINKER.SHARE
line 2A1 CEMENT.CO2 Q31 CL=l:CLINKER IM=a:CLINKER.IN EX=k:NO EF=f:CLINKER.EF
line 2A2 LIME.CO2 Q33 EF=f:LIME.EF ML=a:LIME CF=f:KILN.DUST CH=f:HYDRATED
line 2A3 GLASS.CO2 Q34 MG=a:GLASS EF=f:GLASS.EF CR=f:CULLET
line 2A4 CARBONATES.CO2 Q35 M=a:CARBONATES EFLS=f:CALCITE EFD=f:DOLOMITE
f CLINKER.SHARE pct 78
f CLINKER.EF t/t 0.52
f LIME.EF t/t 0.75
f KILN.DUST 1 1.02
f HYDRATED 1 0.97
f GLASS.EF t/t 0.2
f CULLET pct 45
f CALCITE t/t 0.43971
f DOLOMITE t/t 0.47732
a CEMENT kt 2450 2790
a CLINKER.IN kt 120 131
a LIME kt 340 315
a GLASS kt 205 214
a CARBONATES kt 51 49
""",
    "acids": """
line 2B1 AMMONIA.CO2 Q37 AP=a:AMMONIA FR=f:AMMONIA.FUEL CCF=f:AMMONIA.C COF=f:ALL R=a:UREA.CO2
line 2B2 NITRIC.N2O Q38 EF=f:NITRIC.EF P=a:NITRIC
line 2B3 ADIPIC.N2O Q39 EF=f:ADIPIC.EF P=a:ADIPIC DF=f:DESTROYED ASUF=f:IN.USE
f AMMONIA.FUEL GJ/t 37.5
f AMMONIA.C tC/TJ 15.3
f ALL 1 1
f NITRIC.EF kg/t 7
enter,factor,,NITRIC.EF,2015,1.9,,,kg/t,the plant has a catalyst since 2015
f ADIPIC.EF kg/t 300
f DESTROYED pct 98.5
f IN.USE pct 89
a AMMONIA kt 410 452
a UREA.CO2 Gg-gas 210 226
a NITRIC kt 560 602
a ADIPIC kt 61 66
""",
    "metals": """
line 2C1 STEEL.CO2 Q40 BOF=a:BOF.STEEL EFB=f:BOF.EF EAF=a:EAF.STEEL EFE=f:EAF.EF OHF=k:NO EFO=k:NO
line 2C3 ANODES.CO2 Q41 EFP=f:ANODES.EF MPP=a:ALUMINIUM EFS=k:NO MPS=k:NO
line 2C3 ANODES.CF4 Q44 S=f:SLOPE AEM=a:EFFECTS MP=a:ALUMINIUM
line 2C3 ANODES.C2F6 Q45 CF=l:ANODES.CF4 F=f:HEXA
line 1A2 OVENS.CO2 Q10 FC=a:COKE.OVEN.GAS EF=f:OVEN.GAS
line 1A2 BLAST.CO2 Q10 FC=a:BLAST.FURNACE.GAS EF=f:BFG
f BOF.EF t/t 1.46
f EAF.EF t/t 0.08
f ANODES.EF t/t 1.6
f SLOPE kg/t/AEmin 0.143
f HEXA t/t 0.121
f OVEN.GAS kg/TJ 44400
f BFG kg/TJ 260000
a BOF.STEEL kt 2600 2380
a EAF.STEEL kt 610 700
a ALUMINIUM kt 171 180
a EFFECTS AEmin 0.62 0.58
a COKE.OVEN.GAS TJ 4100 3900
a BLAST.FURNACE.GAS TJ 7600 7100
""",
    "uses": """
line 2D1 GREASE.CO2 Q46 LC=a:LUBRICANTS CC=f:LUBRICANTS.C ODU=f:USED.UP
line 2D2 WAXES.CO2 Q46 LC=a:WAXES CC=f:WAXES.C ODU=f:USED.UP
line 2A4 FLUX.CO2 Q36 MLS=a:LIMESTONE EFLS=f:CALCITE MD=a:DOLOMITE EFD=f:DOLOMITE.EF
line 2A1 KILN.CO2 Q32 MCL=a:KILN.MEASURED EF=f:ONE CF=f:ONE
line 1A2 KILN.COKE.CO2 Q10 FC=a:PETCOKE EF=f:PETCOKE.CO2
line 1A2 MILL.CO2 Q10 FC=a:MILL.GAS EF=f:GAS.CO2
f LUBRICANTS.C tC/TJ 20
f WAXES.C tC/TJ 20
f USED.UP pct 20
f CALCITE t/t 0.43971
f DOLOMITE.EF t/t 0.47732
f ONE 1 1
f PETCOKE.CO2 kg/TJ 97500
f GAS.CO2 kg/TJ 56100
a LUBRICANTS TJ 1450 1310
a WAXES TJ 210 225
a LIMESTONE kt 88 92
a DOLOMITE kt 14 15
a KILN.MEASURED kt 820 860
a PETCOKE TJ 2900 3050
a MILL.GAS TJ 5100 5300
""",
    "dairy": """
line 3A1 COWS.ENTERIC.EF Q56 GE=a:COWS.INTAKE YM=f:COWS.YM
line 3A1 COWS.ENTERIC Q55 EF=l:COWS.ENTERIC.EF N=a:COWS
line 3A1 CATTLE.ENTERIC Q55 EF=f:CATTLE.EF N=a:CATTLE
line 3A1 SHEEP.ENTERIC Q55 EF=f:SHEEP.EF N=a:SHEEP
line 3A2 SLURRY.CONV Q57 MCF=f:SLURRY.MCF MS=f:SLURRY.SHARE
line 3A2 SOLID.CONV Q57 MCF=f:SOLID.MCF MS=f:SOLID.SHARE
line 3A2 FIELD.CONV Q57 MCF=f:FIELD.MCF MS=f:FIELD.SHARE
line 3A2 COWS.MANURE.EF Q58 VS=f:COWS.VS BO=f:COWS.BO SM=s:SLURRY.CONV+SOLID.CONV+FIELD.CONV
line 3A2 COWS.MANURE Q55 EF=l:COWS.MANURE.EF N=a:COWS
f COWS.YM pct 6.5
f CATTLE.EF kg/head 57
f SHEEP.EF kg/head 8
f SLURRY.MCF pct 17
f SOLID.MCF pct 2
f FIELD.MCF pct 1
f SLURRY.SHARE pct 50
f SOLID.SHARE pct 30
f FIELD.SHARE pct 20
f COWS.VS kg/head/day 5.1
f COWS.BO m3/kg 0.24
a COWS head 412000 371000
a COWS.INTAKE MJ/head/day 286 322
a CATTLE head 655000 640000
a SHEEP head 1210000 1340000
""",
    "manure": """
line 3A2 PIGS.NEX Q62 NR=f:PIGS.NR TAM=f:PIGS.MASS
line 3A2 PIGS.PIT.N2O Q59 N=a:PIGS NEX=l:PIGS.NEX MS=f:PIT.SHARE EF3=f:PIT.EF3
line 3A2 PIGS.HEAP.N2O Q59 N=a:PIGS NEX=l:PIGS.NEX MS=f:HEAP.SHARE EF3=f:HEAP.EF3
line 3C6 PIGS.PIT.NH3 Q60 N=a:PIGS NEX=l:PIGS.NEX MS=f:PIT.SHARE FR=f:PIT.FR
line 3C6 PIGS.HEAP.NH3 Q60 N=a:PIGS NEX=l:PIGS.NEX MS=f:HEAP.SHARE FR=f:HEAP.FR
line 3C6 PIGS.INDIRECT Q61 NV=s:PIGS.PIT.NH3+PIGS.HEAP.NH3 EF=f:EF4
line 3A1 PIGS.ENTERIC Q55 EF=f:PIGS.EF N=a:PIGS
line 3A2 PIGS.MANURE Q55 EF=f:PIGS.MANURE.EF N=a:PIGS
f PIGS.NR kg/t/day 0.51
f PIGS.MASS kg/head 50
f PIT.SHARE pct 82
f HEAP.SHARE pct 18
f PIT.EF3 kg/kg 0.002
f HEAP.EF3 kg/kg 0.005
f PIT.FR pct 25
f HEAP.FR pct 45
f EF4 kg/kg 0.01
f PIGS.EF kg/head 1.5
f PIGS.MANURE.EF kg/head 9
a PIGS head 2100000 2260000
""",
    "soils": """
line 3C4 MANURE.N Q68 NA=a:MANURE.LEFT FF=k:NO FU=f:BURNT.SHARE FC=k:NO
line 3C4 ORGANIC.N Q67 FAM=l:MANURE.N FSEW=a:SLUDGE.N FCOMP=a:COMPOST.N FOOA=k:NO
line 3C4 INPUTS.N2O Q69 FSN=a:FERTILISER.N FON=l:ORGANIC.N FCR=a:STRAW.N FSOM=k:NO EF1=f:EF1
line 3C4 BOGS.N2O Q70 A=a:BOGS EF2=f:EF2
line 3C4 PASTURE.N2O Q71 FP=a:PASTURE.N EF3=f:EF3
line 3C5 AIR.N2O Q72 FSN=a:FERTILISER.N FG=f:FG FON=l:ORGANIC.N FP=a:PASTURE.N FM=f:FM EF4=f:EF4
line 3C5 RUN.N2O Q73 FSN=a:FERTILISER.N FON=l:ORGANIC.N FP=a:PASTURE.N FCR=k:NO FSOM=k:NO FL=f:FL EF5=f:EF5
f BURNT.SHARE pct 4
f EF1 kg/kg 0.01
f EF2 kg/ha 8
f EF3 kg/kg 0.02
f FG kg/kg 0.1
f FM kg/kg 0.2
f EF4 kg/kg 0.01
f FL kg/kg 0.3
f EF5 kg/kg 0.0075
a FERTILISER.N kt 168 171
a MANURE.LEFT kt 92 88
a SLUDGE.N t 3100 3500
a COMPOST.N t 1200 1900
a STRAW.N kt 61 66
a PASTURE.N kt 54 51
a BOGS kha 46 44
""",
    "fields": """
line 3C2 LIMING.CO2 Q74 ML=a:LIMESTONE EFL=f:LIMESTONE.C MD=a:DOLOMITE EFD=f:DOLOMITE.C
line 3C3 UREA.CO2 Q75 M=a:UREA EF=f:UREA.C
line 3C7 PADDY.EF Q76 EFC=f:FLOODED SFW=f:DRAINED SFP=f:BEFORE SFO=f:STRAW.LEFT SFS=f:SOIL
line 3C7 PADDY.CH4 Q77 EF=l:PADDY.EF T=f:SEASON A=a:PADDY
line 3C7 DEEP.CH4 Q77 EF=f:DEEP.EF T=f:SEASON A=a:DEEP
line 3C1 STUBBLE.CH4 Q88 A=a:STUBBLE MB=f:STUBBLE.MASS CB=f:BURNT GEF=f:STUBBLE.CH4
line 3C1 STUBBLE.N2O Q89 A=a:STUBBLE MB=f:STUBBLE.MASS CB=f:BURNT GEF=f:STUBBLE.N2O
f LIMESTONE.C t/t 0.12
f DOLOMITE.C t/t 0.13
f UREA.C t/t 0.2
f FLOODED kg/ha/day 1.3
f DRAINED 1 0.6
f BEFORE 1 1
f STRAW.LEFT 1 1.4
f SOIL 1 1
f SEASON day 115
f DEEP.EF kg/ha/day 1.1
f STUBBLE.MASS t/ha 5
f BURNT 1 0.9
f STUBBLE.CH4 g/kg 2.7
f STUBBLE.N2O g/kg 0.07
a LIMESTONE kt 71 83
a DOLOMITE kt 22 21
a UREA kt 61 68
a PADDY kha 120 126
a DEEP kha 14 13
a STUBBLE kha 30 26
""",
    "forest": """
line 3B1 GROWTH Q78 A=a:FOREST GW=f:GROWTH R=f:ROOTS CF=f:CARBON
line 3B1 LOGS Q80 H=a:LOGS BCEF=f:EXPANSION R=f:ROOTS CF=f:CARBON
line 3B1 STORMS Q82 A=a:STORMS BW=f:BIOMASS R=f:ROOTS CF=f:CARBON FD=f:LOST
line 3B1 LOSSES Q83 G=s:LOGS+STORMS L=k:NO
line 3B1 FOREST.CHANGE Q83 G=l:GROWTH L=l:LOSSES
line 3B1 FOREST.CO2 Q84 C=l:FOREST.CHANGE
line 3B1 BOGS Q87 A=a:DRAINED EF=f:PEAT.LOSS
line 3B1 BOGS.CHANGE Q83 G=k:NO L=l:BOGS
line 3B1 BOGS.CO2 Q84 C=l:BOGS.CHANGE
f GROWTH t/ha 4.1
f ROOTS 1 0.29
f CARBON t/t 0.51
f EXPANSION t/m3 0.77
f BIOMASS t/ha 120
f LOST 1 0.4
f PEAT.LOSS t/ha 0.68
a FOREST kha 890 915
a LOGS Mm3 2.1 2.3
a STORMS ha 700 820
a DRAINED kha 31 30
""",
    "meadows": """
line 3B3 STOCK Q85 SREF=f:REFERENCE FLU=f:GRASS.LU FMG=f:GRASS.MG FI=f:GRASS.IN A=a:MEADOWS
line 3B3 STOCK.BEFORE Q83 G=p:STOCK L=a:STOCK.FIRST
line 3B3 CHANGE Q83 G=l:STOCK L=l:STOCK.BEFORE
line 3B3 MEADOWS.CO2 Q84 C=l:CHANGE
line 3A1 GOATS.CH4 Q55 EF=f:GOATS N=a:GOATS
line 3A1 HORSES.CH4 Q55 EF=f:HORSES N=a:HORSES
f REFERENCE t/ha 95
f GRASS.LU 1 1
f GRASS.MG 1 1
f GRASS.IN 1 1.11
f GOATS kg/head 5
f HORSES kg/head 18
a MEADOWS kha 410 418
a GOATS head 98000 103000
a HORSES head 51000 49500
enter,activity,,STOCK.FIRST,2010,-43150,,,GgC,less the stock of 2009
""" + "".join(f"enter,activity,,STOCK.FIRST,{year},0,,,GgC,\n" for year in range(2011, 2021)),
    "cropland": """
line 3B2 NOW.FULL Q85 SREF=f:REFERENCE FLU=f:TILLED FMG=f:FULL FI=f:MEDIUM A=a:FULL.NOW
line 3B2 NOW.LITTLE Q85 SREF=f:REFERENCE FLU=f:TILLED FMG=f:LITTLE FI=f:MEDIUM A=a:LITTLE.NOW
line 3B2 THEN.FULL Q85 SREF=f:REFERENCE FLU=f:TILLED FMG=f:FULL FI=f:MEDIUM A=a:FULL.THEN
line 3B2 THEN.LITTLE Q85 SREF=f:REFERENCE FLU=f:TILLED FMG=f:LITTLE FI=f:MEDIUM A=a:LITTLE.THEN
line 3B2 SOIL Q86 S0=s:NOW.FULL+NOW.LITTLE ST=s:THEN.FULL+THEN.LITTLE
line 3B2 BOGS Q87 A=a:BOGS EF=f:BOGS
line 3B2 CHANGE Q83 G=l:SOIL L=l:BOGS
line 3B2 CROPLAND.CO2 Q84 C=l:CHANGE
f REFERENCE t/ha 88
f TILLED 1 0.69
f FULL 1 1
f LITTLE 1 1.08
f MEDIUM 1 1
f BOGS t/ha 5
a FULL.NOW kha 700 610
a LITTLE.NOW kha 100 190
a FULL.THEN kha 760 700
a LITTLE.THEN kha 40 100
a BOGS kha 21 20
""",
    "landfill": """
line 4A DEPOSIT Q90 W=a:WASTE DOC=f:DOC DOCF=f:DOCF MCF=f:MCF
line 4A STOCK.BEFORE Q83 G=p:STOCK L=f:STOCK.2009
line 4A STOCK Q91 DEP=l:DEPOSIT PREV=l:STOCK.BEFORE D=d:HALFLIFE
line 4A DECAYED Q92 PREV=l:STOCK.BEFORE D=d:HALFLIFE
line 4A GENERATED Q93 DEC=l:DECAYED F=f:METHANE
line 4A LANDFILL.CH4 Q94 GEN=l:GENERATED R=a:RECOVERED OX=f:OXIDISED
line 4B HEAPS.CH4 Q95 M=a:COMPOST EF=f:HEAPS.CH4 R=k:NO
line 4B HEAPS.N2O Q96 M=a:COMPOST EF=f:HEAPS.N2O
f DOC pct 15
f DOCF 1 0.5
f MCF 1 0.8
enter,factor,,STOCK.2009,2010,-610,,,GgC,less the carbon at the end of 2009
enter,factor,,STOCK.2009,2011,0,,,GgC,
f HALFLIFE yr 7
f METHANE 1 0.5
f OXIDISED 1 0.1
f HEAPS.CH4 g/kg 4
f HEAPS.N2O g/kg 0.3
a WASTE kt 1150 1010
a RECOVERED Gg-gas 4.1 5.2
a COMPOST kt 91 118
""",
    "sewage": """
line 4D1 PLANT.EF Q98 BO=f:BOD.CH4 MCF=f:PLANT.MCF
line 4D1 SEPTIC.EF Q98 BO=f:BOD.CH4 MCF=f:SEPTIC.MCF
line 4D1 RIVER.EF Q98 BO=f:BOD.CH4 MCF=f:RIVER.MCF
line 4D1 TOWN.PLANT Q101 U=f:TOWN T=f:TOWN.PLANT EF=l:PLANT.EF
line 4D1 TOWN.RIVER Q101 U=f:TOWN T=f:TOWN.RIVER EF=l:RIVER.EF
line 4D1 FARM.SEPTIC Q101 U=f:FARM T=f:FARM.SEPTIC EF=l:SEPTIC.EF
line 4D1 LOAD Q99 P=a:PEOPLE BOD=f:BOD I=f:FACTORIES
line 4D1 SEWAGE.CH4 Q100 X=s:TOWN.PLANT+TOWN.RIVER+FARM.SEPTIC TOW=l:LOAD S=k:NO R=k:NO
line 4D1 EFFLUENT Q102 P=a:PEOPLE PR=f:PROTEIN FNPR=f:N.IN.PROTEIN FNON=f:NOT.EATEN FIND=f:FACTORIES NS=k:NO
line 4D1 SEWAGE.N2O Q103 N=l:EFFLUENT EF=f:EFFLUENT.EF
f BOD.CH4 kg/kg 0.6
f PLANT.MCF 1 0.3
f SEPTIC.MCF 1 0.5
f RIVER.MCF 1 0.1
f TOWN pct 73
f FARM pct 27
f TOWN.PLANT pct 88
f TOWN.RIVER pct 12
f FARM.SEPTIC pct 80
f BOD g/person/day 60
f FACTORIES 1 1.25
f PROTEIN kg/person 36.5
f N.IN.PROTEIN kg/kg 0.16
f NOT.EATEN 1 1.1
f EFFLUENT.EF kg/kg 0.005
a PEOPLE person 4850000 5120000
""",
    "burners": """
line 4C1 PLASTIC.CO2 Q97 SW=a:PLASTIC DM=f:PLASTIC.DM CF=f:PLASTIC.C FCF=f:PLASTIC.FOSSIL OF=f:OXIDISED
line 4C1 CLOTH.CO2 Q97 SW=a:CLOTH DM=f:CLOTH.DM CF=f:CLOTH.C FCF=f:CLOTH.FOSSIL OF=f:OXIDISED
line 4C1 BURNT.N2O Q96 M=a:BURNT EF=f:BURNT.N2O
line 4C1 BURNT.CH4 Q95 M=a:BURNT EF=f:BURNT.CH4 R=k:NO
line 1A1a MSW.CO2 Q10 FC=a:MSW EF=f:MSW.CO2
line 1A1a BIOGAS.CH4 Q11 FC=a:BIOGAS EF=f:BIOGAS.CH4
line MC BIOGAS.CO2 Q10 FC=a:BIOGAS EF=f:BIOGAS.CO2
f PLASTIC.DM pct 100
f PLASTIC.C pct 75
f PLASTIC.FOSSIL pct 100
f CLOTH.DM pct 80
f CLOTH.C pct 50
f CLOTH.FOSSIL pct 20
f OXIDISED pct 100
f BURNT.N2O kg/t 0.05
f BURNT.CH4 kg/t 0.0002
f MSW.CO2 kg/TJ 91700
f BIOGAS.CH4 kg/TJ 1
f BIOGAS.CO2 kg/TJ 54600
a PLASTIC kt 14 17
a CLOTH kt 5 5.6
a BURNT kt 101 117
a MSW TJ 3300 3800
a BIOGAS TJ 410 560
""",
    "cycle": """
line 1A2 MILLS.CO2 Q10 FC=a:MILLS.GAS EF=f:GAS.EF
line 1A2 WORKS.CO2 Q10 FC=a:WORKS.COAL EF=f:COAL.EF
line 1A2 OTHERS.CO2 Q10 FC=a:OTHERS.OIL EF=f:OIL.EF
line 3A1 EWES.CH4 Q55 EF=f:EWES.EF N=a:EWES
line 3C1 FIRES.CH4 Q88 A=a:FIRES MB=f:FIRES.MASS CB=f:FIRES.BURNT GEF=f:FIRES.CH4
f GAS.EF kg/TJ 56100
f COAL.EF kg/TJ 94600
f OIL.EF kg/TJ 77400
f EWES.EF kg/head 8
f FIRES.MASS t/ha 50
f FIRES.BURNT 1 0.45
f FIRES.CH4 g/kg 4.7
a MILLS.GAS TJ 4100 4500
a WORKS.COAL TJ 2600 2200
a OTHERS.OIL TJ 900 940
a EWES head 310000 301000
enter,activity,,FIRES,2010,310,290,330,ha,
enter,activity,,FIRES,2011,1200,1100,1300,ha,
enter,activity,,FIRES,2012,90,80,100,ha,
enter,activity,,FIRES,2013,640,600,680,ha,
enter,activity,,FIRES,2014,150,140,160,ha,
enter,activity,,FIRES,2015,NO,,,ha,
enter,activity,,FIRES,2016,880,800,960,ha,
enter,activity,,FIRES,2017,410,380,440,ha,
enter,activity,,FIRES,2018,95,90,100,ha,
enter,activity,,FIRES,2019,720,700,740,ha,
enter,activity,,FIRES,2020,205,200,210,ha,
enter,uncert,,MILLS.CO2,,2,3,,,
enter,uncert,,WORKS.CO2,,2,5,,,
enter,uncert,,OTHERS.CO2,,3,5,,,
enter,uncert,,EWES.CH4,,5,40,,,
enter,uncert,,FIRES.CH4,,20,60,,,
file
correct,span,,,2010,2021,2010,,,
enter,activity,,MILLS.GAS,2021,4560,,,TJ,
enter,activity,,WORKS.COAL,2021,2150,,,TJ,
enter,activity,,OTHERS.OIL,2021,951,,,TJ,
enter,activity,,EWES,2021,300000,,,head,
enter,activity,,FIRES,2021,300,280,320,ha,
correct,activity,,FIRES,2020,211,205,217,ha,
file
correct,span,,,2010,2022,2010,,,
enter,activity,,MILLS.GAS,2022,4590,,,TJ,
enter,activity,,WORKS.COAL,2022,2090,,,TJ,
enter,activity,,OTHERS.OIL,2022,948,,,TJ,
enter,activity,,EWES,2022,298500,,,head,
enter,activity,,FIRES,2022,700,660,740,ha,
correct,activity,,FIRES,2020,214,207,221,ha,
""",
    **FURTHER,
}


def wobble(name: str, year: int) -> float:
    """A movement of at most two percent, which differs by name and year."""
    return 1 + ((sum(name.encode()) * 7 + year * year * 3) % 41 - 20) / 1000


def digits(value: float) -> str:
    """A figure in five digits that count, without an exponent."""
    return f"{value:.0f}" if abs(value) >= 10000 else f"{value:.5g}"


def rows_of(text: str) -> list[str]:
    """The rows that a line of the notation stands for."""
    kind, *words = text.split()
    if kind == "line":
        category, name, equation, *bound = words
        rows = [f"enter,line,{category},{name},,{equation},,,,"]
        for word in bound:
            parameter, form, target = word.replace("=", ":").split(":")
            rows.append(f"enter,bind,{name},{parameter},,{FORMS[form]},{target.replace('+', ' ')},,,")
        return rows
    if kind == "f":
        name, unit, value = words
        return [f"enter,factor,,{name},{FIRST},{value},,,{unit},"]
    if kind == "a":
        name, unit, first, last = words
        step = (float(last) - float(first)) / (LAST - FIRST)
        values = {year: (float(first) + step * (year - FIRST)) * wobble(name, year) for year in YEARS}
        return [f"enter,activity,,{name},{year},{digits(value)},,,{unit}," for year, value in values.items()]
    return [text]


def files_of(text: str) -> list[list[str]]:
    """The rows of the files of an inventory."""
    files = [SPAN.splitlines()]
    for line in text.strip().splitlines():
        if line == "file":
            files.append([])
        else:
            files[-1] += rows_of(line)
    return files


def write(files: list[list[str]], folder: pathlib.Path) -> None:
    """Writes the files of an inventory as 1.csv and so on."""
    for at, rows in enumerate(files, 1):
        (folder / f"{at}.csv").write_text("\n".join([HEADER, *rows, ""]), encoding="utf-8")
