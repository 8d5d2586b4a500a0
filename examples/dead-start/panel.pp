*         THE PANEL: PP 00 SENDS A PROGRAM TO PP 01.
          BASE   OCTAL
 CH       EQU    1
          ORG    1
          LDN    COUNT
          OAM    WORDS,CH
          FJM    *,CH        UNTIL PP 01 HAS THE LAST WORD
          DCN    CH
          UJN    *
          BSS    1
 WORDS    CON    0           PP 01 GOES ON AT 0001
*         THIS RUNS IN PP 01, FROM ITS CELL 0001 ON.
          LOC    1
          LDN    7
          STD    50
          UJN    *
 COUNT    EQU    4           WORDS THAT PP 01 GETS
          END
