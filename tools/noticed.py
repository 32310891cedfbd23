"""The tables of what the records, the figures and the lines of a workbook are warned of."""
from tools import figure_notices, line_notices, notices, unchecked
from tools.recognisers import LANDFILL, SMALL, Recogniser

# The rows of the percentages of two lines, of coal in the reference approach, of stack gas that was measured,
# of a second line of cows, and of N2O by the equation of CH4.
UNCERTAIN = "enter,uncert,,COWS.CH4,,3,20,,,\nenter,uncert,,SOILS.N2O,,15,100,,,\n"
REFERENCE = """\
enter,line,RA,REF.COAL,,Q20,,,,
enter,bind,REF.COAL,PR,,activity,COAL,,,
enter,bind,REF.COAL,IM,,key,NO,,,
enter,bind,REF.COAL,EX,,key,NO,,,
enter,bind,REF.COAL,IB,,key,NO,,,
enter,bind,REF.COAL,SC,,activity,COAL.SC,,,
enter,line,RA,REF.CO2,,Q25,,,,
enter,bind,REF.CO2,AC,,line,REF.COAL,,,
enter,bind,REF.CO2,CONV,,factor,COAL.NCV,,,
enter,bind,REF.CO2,CC,,factor,COAL.CC,,,
enter,bind,REF.CO2,XC,,key,NO,,,
enter,bind,REF.CO2,COF,,factor,ONE,,,
enter,factor,,COAL.CC,2019,25.8,,,tC/TJ,
enter,factor,,ONE,2019,1,,,1,
enter,activity,,COAL.SC,2019,-10,,,kt,
enter,activity,,COAL.SC,2020,10,,,kt,
enter,activity,,COAL.SC,2021,10,,,kt,"""
STACK = """\
enter,line,1A1a,STACK.CO2,,Q32,,,,
enter,bind,STACK.CO2,MCL,,activity,STACK,,,
enter,bind,STACK.CO2,EF,,factor,ONE,,,
enter,bind,STACK.CO2,CF,,factor,ONE,,,
enter,factor,,ONE,2019,1,,,1,
enter,activity,,STACK,2019,41250,,,t,
enter,activity,,STACK,2020,41300,,,t,
enter,activity,,STACK,2021,41200,,,t,"""
COWS = """\
enter,line,3A1,COWS.MORE,,Q55,,,,
enter,bind,COWS.MORE,N,,activity,COWS,,,
enter,bind,COWS.MORE,EF,,factor,COWS.EF,,,"""
NITROUS = """\
enter,line,1A1a,COAL.N2O,,Q11,,,,
enter,bind,COAL.N2O,FC,,line,COAL.TJ,,,
enter,bind,COAL.N2O,EF,,factor,COAL.EF.N2O,,,
enter,factor,,COAL.EF.N2O,2019,1.5,,,kg/TJ,"""

RECORDS = (
    Recogniser(
        notices.orphans,
        "activities and factors that no line takes",
        "enter,activity,,SLUDGE,2020,1050,,,kt,", "no line takes activity SLUDGE (2020)",
        "enter,factor,,GWP.CF4,2019,6630,,,1,"),
    Recogniser(
        notices.holes, "a year that an activity lacks between others, or at the first or the last year of "
        "the span where it has most of its years",
        "-enter,activity,,COAL,2020", "activity COAL has no record of 2020; line COAL.TJ is blank there",
        "enter,activity,,COAL,2020,1050000,,,t,"),
    Recogniser(
        notices.outside, "records outside the span",
        "enter,activity,,COAL,2018,1000,,,kt,", "activity COAL of 2018 is outside the span, 2019 to 2021",
        "enter,factor,,COAL.EF,2018,94600,89500,99700,kg/TJ,"),
    Recogniser(
        notices.late_factors, "factors that begin after its first year",
        "-enter,factor,,COWS.EF,2019\nenter,factor,,COWS.EF,2020,126,,,kg/head,",
        "factor COWS.EF begins in 2020; line COWS.CH4 is blank in 2019",
        "enter,factor,,COWS.EF,2020,127,,,kg/head,"),
    Recogniser(
        notices.without_last_year, "a last year without activities",
        "enter,span,,,2019,2022,2019,,,", "the span goes to 2022, and no activity has a record of it",
        "enter,span,,,2019,2021,2020,,,"),
    Recogniser(
        notices.without_potential, "gases without a potential",
        "-enter,factor,,GWP.CH4", "1 line emits CH4, and there is no factor GWP.CH4; totals count it as zero",
        "-enter,factor,,GWP.CH4\nenter,factor,,GWP.CH4,2018,28,,,1,"),
    Recogniser(
        notices.without_uncertainty, "no uncertainty where others have one",
        "enter,uncert,,COAL.CO2,,2,5,,,", "2 lines have no uncertainty, and others have one",
        UNCERTAIN + "enter,uncert,,COAL.CO2,,2,5,,,"),
    Recogniser(
        unchecked.unchecked_defaults, "rows of `defaults/`, which were written down from memory",
        'enter,factor,,GWP.CH4,2019,28,,,1,"Fifth Assessment Report, 2013, without climate-carbon feedbacks: '
        'over 100 years, from memory"',
        "1 factor of defaults/ is unchecked: GWP.CH4; compare it with the source in the note",
        "enter,factor,,GWP.CH4,2019,28,,,1,compared with Table 8.A.1"),
)
FIGURES = (
    Recogniser(
        figure_notices.hundredfold,
        "activities that grow or shrink a hundredfold from one record to the next",
        "enter,activity,,COAL,2020,1050000,,,kt,", "activity COAL is 1000 kt in 2019 and 1050000 kt in 2020",
        "enter,activity,,COAL,2020,1050000,,,t,"),
    Recogniser(
        figure_notices.negatives, "negative activities",
        "enter,activity,,COWS,2020,-248000,,,head,", "activity COWS is negative: -248000 head in 2020",
        REFERENCE),
    Recogniser(
        figure_notices.ratios, "ratios outside 0 to 1, but for corrections and others that are no shares",
        "enter,factor,,SOILS.EF1,2019,1.6,,,1,", "factor SOILS.EF1 is a ratio outside 0 to 1: 1.6 1",
        "enter,factor,,SOILS.EF1,2019,1,,,pct,"),
    Recogniser(
        figure_notices.distances, "bounds at one distance to both sides of zero",
        "enter,activity,,MANURE.N,2019,21000,-30000,30000,t,", "low and high are bounds, and no distances",
        "enter,activity,,MANURE.N,2019,21000,12000,30000,t,"),
    Recogniser(
        figure_notices.shares_as_percentages, "percentages that are both below 1",
        UNCERTAIN + "enter,uncert,,COAL.CO2,,0.02,0.05,,,",
        "both percentages of COAL.CO2 are below 1: 0.02 and 0.05",
        UNCERTAIN + "enter,uncert,,COAL.CO2,,2,0.5,,,"),
)
LINES = (
    Recogniser(
        line_notices.double_lines, "two lines of one equation over the same activity",
        COWS, "line COWS.MORE and line COWS.CH4 (1.csv:17) are both Q55 of activity COWS",
        COWS.replace("3A1", "3A2")),
    Recogniser(
        line_notices.other_volumes, "an equation of another volume than the category",
        "-enter,line,3A1,COWS.CH4\nenter,line,1A1a,COWS.CH4,,Q55,,,,", "has Q55 of Volume 4", STACK),
    Recogniser(
        line_notices.other_codes, "or of a category that has this code in other guidelines",
        "-enter,line,3C4,SOILS.N2O\nenter,line,3D1,SOILS.N2O,,Q69,,,,",
        "3D is agricultural soils in the common reporting tables, and that is 3C4 here",
        "-enter,line,3A1,COWS.CH4\nenter,line,3A2,COWS.CH4,,Q55,,,,"),
    Recogniser(
        line_notices.other_gases, "or of another gas than the name of the line or of a factor says",
        NITROUS, "line COAL.N2O has Q11, which gives CH4; Q12 gives N2O", NITROUS.replace("Q11", "Q12")),
    Recogniser(
        line_notices.always_blank,
        "a line that takes an activity or a line, and is blank in all years, since another parameter is "
        "bound to NE",
        "enter,bind,SOILS.N2O,FCR,,key,NE,,,", "line SOILS.N2O is blank in all years: FCR is bound to NE",
        "enter,bind,SOILS.N2O,FCR,,key,IE,,,"),
    Recogniser(
        line_notices.stocks_of_the_year, "the stock of the same year in a landfill that decays",
        "enter,bind,DECAYED,PREV,,line,STOCK,,,", "PREV of Q92 is the stock at the end of the year before",
        "enter,bind,STOCK,DEP,,sum,WASTE.C,,,", LANDFILL),
    Recogniser(
        line_notices.flows_of_last_year, "what another line gave the year before, where that is no stock",
        "enter,bind,COAL.CO2,FC,,prev,COAL.TJ,,,", "and energy is no stock; is line meant?",
        "enter,bind,COAL.CO2,FC,,sum,COAL.TJ,,,", SMALL),
)
