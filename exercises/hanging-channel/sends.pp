*         PP 00 SENDS THREE WORDS.
          BASE   OCTAL
 CH       EQU    3
 DONE     EQU    50          CELL - 1 AT THE END
 COUNT    EQU    3           WORDS
          ORG    100
 START    ACN    CH
          LDN    COUNT
          OAM    WORDS,CH
          DCN    CH
          LDN    1
          STD    DONE
          UJN    *
          ORG    200
 WORDS    CON    1111,2222,3333
          END    START
