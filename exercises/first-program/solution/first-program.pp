*         ADD TWO NUMBERS.
          BASE   OCTAL
          ORG    20
 ONE      CON    1234
 OTHER    CON    4321
 SUM      EQU    22          CELL - THEIR SUM
          ORG    100
 START    LDD    ONE
          ADD    OTHER
          STD    SUM
          UJN    *
          END    START
