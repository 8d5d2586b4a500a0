*         READ A PROGRAM FROM A CARD TO THE END OF MEMORY, AND JUMP TO IT.
          BASE   OCTAL
 CR       EQU    12          CARD READER
 PROGRAM  EQU    7760
          ORG    10
 START    FNC    1,CR        BEGIN A CARD
          ACN    CR
          LDN    60          WORDS
          IAM    PROGRAM,CR
          DCN    CR
          LJM    PROGRAM
          END    START
