          PERIPH
 PUT      MACRO  CELL,V
          LDN    V
          STD    CELL
          ENDM
          ORG    100B
* It counts in COUNT.
 START    PUT    20B,1
          PUT    21B,2
          RJM    SUB
          IAN    5
          UJN    START

 SUB      SUBR
          AOD    COUNT
          UJN    SUBX
 COUNT    EQU    22B
          END    START
