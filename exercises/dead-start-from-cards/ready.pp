*         PRINT A LINE.  THE CARD OF THE DECK HAS THIS PROGRAM.
          BASE   OCTAL
 LP       EQU    13          PRINTER
          ORG    100
 START    FNC    1,LP        PRINT
          ACN    LP
          LDN    3           WORDS
          OAM    TEXT,LP
          FJM    *,LP        UNTIL THE LAST WORD IS TAKEN
          DCN    LP
          FNC    3,LP        END OF LINE
          UJN    *
          ORG    120
 TEXT     DIS    3,READY.
          END    START
