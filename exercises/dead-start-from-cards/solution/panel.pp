*         READ A CARD INTO MEMORY, AND JUMP TO IT.
          BASE   OCTAL
 CR       EQU    12          CARD READER
          ORG    1
          FNC    1,CR        BEGIN A CARD
          ACN    CR
          LDN    23          WORDS OF THE PROGRAM
          IAM    100,CR
          DCN    CR
          LJM    100
          END
