*         PP 03 CLEARS WORD 1006 OF CENTRAL MEMORY.
          BASE   OCTAL
          ORG    100
 START    LDC    1006
          CWD    20          FROM CELLS 0020 TO 0024, WHICH ARE ZERO
          UJN    *
          END    START
