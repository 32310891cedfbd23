"""Right inventories of many kinds, of which nothing may be told. Each line has its category, its name, its
equation and its parameters: `FC:40,41,42:PJ` is an activity of three years, `EF:69.3:t/TJ` a factor,
`CL=CLINKER` another line, and `IM:NO` a notation key.
"""

INVENTORIES = {
    "road": """
1A3b CARS.CO2 Q10 FC:40.1,41.2,39.7:PJ EF:69.3:t/TJ
1A3b CARS.CH4 Q11 FC:40.1,41.2,39.7:PJ EF:25:kg/TJ
1A3b CARS.N2O Q12 FC:40.1,41.2,39.7:PJ EF:8:kg/TJ
1A3b TRUCKS.CO2 Q10 FC:61,63,60:PJ EF:74100:kg/TJ
1A3b BIODIESEL.CH4 Q11 FC:2.1,2.3,2.2:PJ EF:3.9:kg/TJ""",
    "mass": """
1A1a LIGNITE.TJ Q13 FM:9800,9700,9600:kt NCV:11.9:TJ/Gg
1A1a LIGNITE.CO2 Q10 FC=LIGNITE.TJ EF:101:t/TJ
1A1a LIGNITE.CH4 Q11 FC=LIGNITE.TJ EF:1:g/GJ
1A1a LIGNITE.N2O Q12 FC=LIGNITE.TJ EF:1.5:g/GJ""",
    "gas in GWh": """
1A4b HOMES.CO2 Q10 FC:20100,21000,20500:GWh EF:56.1:kg/GJ
1A4a SHOPS.CO2 Q10 FC:900,910,905:ktoe EF:56100:kg/TJ
1A4b WOOD.CH4 Q11 FC:12000,11900,11800:TJ EF:300:kg/TJ""",
    "furnace gas": """
1A2 BLAST.CO2 Q10 FC:8100,8200,8150:TJ EF:260:t/TJ
1A2 OVEN.CO2 Q10 FC:4100,4200,4150:TJ EF:44.4:t/TJ
2C1 STEEL.CO2 Q40 BOF:4100,4200,4150:kt EFB:1.46:t/t EAF:900,910,905:kt EFE:0.08:t/t OHF:NO EFO:NO""",
    "reference": """
RA CRUDE Q20 PR:NO IM:9100,9200,9150:kt EX:NO IB:NO SC:-40,20,10:kt
RA CRUDE.CO2 Q25 AC=CRUDE CONV:42.3:TJ/Gg CC:20:tC/TJ XC:NO COF:1:1
RA GAS Q22 PR:NO IM:210000,214000,209000:TJ EX:NO IB:NO SC:900,-800,-300:TJ
RA GAS.CO2 Q26 AC=GAS CC:15.3:kgC/GJ XC:12,12.1,12.2:GgC COF:1:1""",
    "fugitive": """
1B1 MINES.CH4 Q14 P:4100,4000,3900:kt EF:18:m3/t
1B2 WELLS.CH4 Q15 A:310,320,315:Mm3 EF:0.0025:Gg/Mm3
1B2 FLARES.CO2 Q16 A:310,320,315:Mm3 EF:0.0012:Gg/Mm3""",
    "cement": """
2A1 CLINKER Q30 MC:2152,2242,2236:kt CCL:75:pct
2A1 CEMENT.CO2 Q31 CL=CLINKER IM:24.6,25.7,26.1:kt EX:NO EF:0.52:t/t
2A2 LIME.CO2 Q33 EF:0.75:t/t ML:410,400,405:kt CF:1.02:1 CH:0.97:1
2A3 GLASS.CO2 Q34 MG:390,400,395:kt EF:0.2:t/t CR:35:pct""",
    "chemicals": """
2B1 AMMONIA.CO2 Q37 AP:410,405,421:kt FR:30.2:GJ/t CCF:15.3:kgC/GJ COF:1:1 R:95,93,97:Gg-gas
2B2 NITRIC.N2O Q39 EF:9:kg/t P:332,335,341:kt DF:80:pct ASUF:95:pct
2D1 OILS.CO2 Q46 LC:4100,4000,3900:TJ CC:20:tC/TJ ODU:20:pct""",
    "aluminium": """
2C3 ANODES.CO2 Q41 EFP:1.6:t/t MPP:120,121,118:kt EFS:NO MPS:NO
2C3 SLOPE.CF4 Q44 S:0.143:kg/t/AEmin AEM:0.6:AEmin MP:120,121,118:kt
2C3 SHARE.C2F6 Q45 CF:12,12.1,11.8:t-gas F:0.121:t/t""",
    "cattle": """
3A1 DAIRY.EF Q56 GE:310:MJ/head/day YM:6.5:pct
3A1 DAIRY.CH4 Q55 EF=DAIRY.EF N:412000,409165,401817:head
3A2 SOLID.N2O Q59 N:412000,409165,401817:head NEX:105:kg/head MS:35:pct EF3:0.005:kg/kg
3A2 SWINE.CH4 Q55 EF:6:kg/head N:1100000,1090000,1105000:head""",
    "manure": """
3A2 SLURRY.MCF Q57 MCF:17:pct MS:45:pct
3A2 DAIRY.MEF Q58 VS:5.1:kg/head/day BO:0.24:m3/kg SM=SLURRY.MCF
3A2 DAIRY.CH4 Q55 EF=DAIRY.MEF N:412000,409165,401817:head
3A2 DAIRY.NEX Q62 NR:0.48:kg/t/day TAM:600:kg/head
3C6 LOST.N Q60 N:412000,409165,401817:head NEX=DAIRY.NEX MS:45:pct FR:40:pct
3C6 LOST.N2O Q61 NV=LOST.N EF:0.01:kg/kg""",
    "soils": """
3C4 INPUTS.N2O Q69 FSN:41,42,40.5:kt FON:21,20.8,20.7:kt FCR:9,9.1,9.2:kt FSOM:NO EF1:1:pct
3C4 ORGANIC.N2O Q70 A:31,30,30:kha EF2:8:kg/ha
3C5 LEACHED.N2O Q73 FSN:41,42,40.5:kt FON:NO FP:NO FCR:NO FSOM:NO FL:30:pct EF5:7.5:g/kg
3C2 LIME.CO2 Q74 ML:52,51,51.5:kt EFL:0.12:t/t MD:4,4.1,4:kt EFD:0.13:t/t
3C3 UREA.CO2 Q75 M:15,14.8,15.1:kt EF:20:pct""",
    "rice": """
3C7 RICE.DAILY Q76 EFC:1.3:kg/ha/day SFW:0.78:1 SFP:1.22:1 SFO:1.6:1 SFS:1:1
3C7 RICE.CH4 Q77 EF=RICE.DAILY T:120:day A:12,12.3,12.1:kha""",
    "forest": """
3B1 GAINS Q79 A:1480,1483,1485:kha IV:5.1:m3/ha BCEF:0.6:t/m3 R:0.29:1 CF:0.51:t/t
3B1 LOSSES Q80 H:3.012,3.153,3.033:Mm3 BCEF:0.77:t/m3 R:0.29:1 CF:51:pct
3B1 CHANGE Q83 G=GAINS L=LOSSES
3B1 FOREST.CO2 Q84 C=CHANGE""",
    "fires": """
3C1 FIRES.CH4 Q88 A:1200,1300,1250:ha MB:50.4:t/ha CB:1:1 GEF:4.7:g/kg
3C1 FIRES.N2O Q89 A:1200,1300,1250:ha MB:50.4:t/ha CB:1:1 GEF:0.26:g/kg""",
    "peat": """
3B2 DRAINED Q87 A:31,30,30:kha EF:5:t/ha
3B2 DRAINED.LOSS Q83 G:NO L=DRAINED
3B2 DRAINED.CO2 Q84 C=DRAINED.LOSS""",
    "compost": """
4B COMPOST.CH4 Q95 M:140,145,149:kt EF:4:g/kg R:30,30,31:t-gas
4B COMPOST.N2O Q96 M:140,145,149:kt EF:0.3:kg/t""",
    "burnt waste": """
4C1 PLASTIC.CO2 Q97 SW:61,63,62:kt DM:100:pct CF:75:pct FCF:100:pct OF:100:pct
4C2 OPEN.CO2 Q97 SW:6,6.2,6.1:kt DM:0.9:1 CF:0.4:1 FCF:0.2:1 OF:0.58:1""",
    "wastewater": """
4D1 TOW Q99 P:9620,9663,9707:person BOD:60:g/person/day I:1.25:1
4D1 PLANT.EF Q98 BO:0.6:kg/kg MCF:0.3:1
4D1 WATER.CH4 Q100 X=PLANT.EF TOW=TOW S:NO R:NO
4D1 WATER.N Q102 P:9620,9663,9707:person PR:34.7:kg/person FNPR:0.16:kg/kg FNON:1.1:1 FIND:1.25:1 NS:NO
4D1 WATER.N2O Q103 N=WATER.N EF:5:g/kg""",
    "bunkers": """
MB SHIPS.CO2 Q10 FC:8.1,8.2,8:PJ EF:77.4:t/TJ
MB PLANES.CO2 Q10 FC:21,22,20.5:PJ EF:71.5:t/TJ
MC WOOD.CO2 Q10 FC:12000,11900,11800:TJ EF:112:t/TJ""",
}


def rows_of(text: str) -> str:
    """The rows of an inventory."""
    rows = ["enter,span,,,2018,2020,2018,,,"]
    potentials = {"CO2": "1", "CH4": "28", "N2O": "265", "CF4": "6630", "C2F6": "11100"}
    rows += [f"enter,factor,,GWP.{gas},2018,{value},,,1," for gas, value in potentials.items()]
    for line in text.strip().splitlines():
        category, name, equation, *parameters = line.split(" ")
        rows.append(f"enter,line,{category},{name},,{equation},,,,")
        for parameter in parameters:
            rows += rows_of_parameter(name, parameter)
    return "\n".join(rows)


def rows_of_parameter(line: str, text: str) -> list[str]:
    """The rows of a parameter of a line, and of its record."""
    if "=" in text:
        name, taken = text.split("=")
        return [f"enter,bind,{line},{name},,line,{taken},,,"]
    name, figures, *unit = text.split(":")
    if not unit:
        return [f"enter,bind,{line},{name},,key,{figures},,,"]
    values, record = figures.split(","), f"{line}.{name}"
    kind = "activity" if len(values) > 1 else "factor"
    return [f"enter,bind,{line},{name},,{kind},{record},,,",
            *[f"enter,{kind},,{record},{2018 + at},{value},,,{unit[0]}," for at, value in enumerate(values)]]
