*         PP 01 HAS OTHER WORK FIRST, AND THEN ANSWERS PP 00.
          BASE   OCTAL
 ASK      EQU    5           CHANNEL OF THE QUESTION
 ANSWER   EQU    6           CHANNEL OF THE ANSWER
          ORG    100
 START    LDN    10
 WORK     SBN    1
          NJN    WORK
          IAN    ASK
          ADN    1
          OAN    ANSWER
          UJN    *
          END    START
