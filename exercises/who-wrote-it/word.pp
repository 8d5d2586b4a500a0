*         PP 01 CLEARS WORD 1001 OF CENTRAL MEMORY.
          BASE   OCTAL
          ORG    100
 START    LDC    1001
          CWD    20          FROM CELLS 0020 TO 0024, WHICH ARE ZERO
          UJN    *
          END    START
