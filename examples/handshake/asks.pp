*         PP 00 ASKS ON ONE CHANNEL, AND HAS THE ANSWER FROM ANOTHER.
          BASE   OCTAL
 ASK      EQU    5           CHANNEL OF THE QUESTION
 ANSWER   EQU    6           CHANNEL OF THE ANSWER
          ORG    100
 START    ACN    ASK
          LDN    7
          OAN    ASK
          DCN    ASK         TOO EARLY - FJM *,ASK SHOULD BE BEFORE IT
          ACN    ANSWER
          IAN    ANSWER
          STD    20
          UJN    *
          END    START
