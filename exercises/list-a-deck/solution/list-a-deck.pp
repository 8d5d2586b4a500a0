*         PRINT A LINE FOR EACH CARD, AND A 1 INTO CELL 0050 AT THE END.
          BASE   OCTAL
 CR       EQU    12          CARD READER
 LP       EQU    13          PRINTER
 CARD     EQU    1000
          ORG    100
 START    FNC    2,CR        ASK FOR THE STATUS
          ACN    CR
          IAN    CR          0 IF A CARD IS LEFT
          NJN    DONE
          FNC    1,CR        BEGIN THE CARD
          ACN    CR
          LDC    120         ALL ITS COLUMNS
          IAM    CARD,CR
          FNC    1,LP        PRINT
          ACN    LP
          LDN    5           WORDS
          OAM    CARD,LP
          FJM    *,LP        UNTIL THE LAST WORD IS TAKEN
          DCN    LP
          FNC    3,LP        END OF LINE
          UJN    START
 DONE     LDN    1
          STD    50
          UJN    *
          END    START
