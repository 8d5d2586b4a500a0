*         PP 01 TAKES THREE WORDS.
          BASE   OCTAL
 CH       EQU    3
 DONE     EQU    50          CELL - 1 AT THE END
          ORG    100
 START    LDN    3
          IAM    300,CH
          DCN    CH
          LDN    1
          STD    DONE
          UJN    *
          END    START
