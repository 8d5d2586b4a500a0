*         READ A PROGRAM FROM A CARD, AND JUMP TO IT.  THE COUNT IS WRONG.
          BASE   OCTAL
 CR       EQU    12          CARD READER
 PROGRAM  EQU    60
          ORG    100
 START    FNC    1,CR        BEGIN A CARD
          ACN    CR
          LDN    77          SHOULD BE 20
          IAM    PROGRAM,CR
          DCN    CR
          LJM    PROGRAM
          END    START
