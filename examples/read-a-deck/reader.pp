*         READ CARDS INTO CELLS 1000 AND ON, ONE BEHIND THE OTHER.
          BASE   OCTAL
 CR       EQU    12          CARD READER
 CARDS    EQU    20          CELL - CARDS READ
 COLUMNS  EQU    120         OF A CARD
          ORG    100
 START    FNC    2,CR        ASK FOR THE STATUS
          ACN    CR
          IAN    CR          0 IF A CARD IS LEFT
          NJN    DONE
          FNC    1,CR        BEGIN THE CARD
          ACN    CR
          LDC    COLUMNS
 INPUT    IAM    1000,CR
          LDC    COLUMNS     THE NEXT CARD GOES BEHIND THIS ONE
          RAM    INPUT+1
          AOD    CARDS
          UJN    START
 DONE     UJN    *
          END    START
